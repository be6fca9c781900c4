# a version is compatible with those of its major and minor number that are not later; before 1.0.0 the minor one is what breaks
set(PACKAGE_VERSION "@VERSION@")
string(REGEX MATCH "^[0-9]+[.][0-9]+" rimonakh_SERIES "${PACKAGE_VERSION}")
if(PACKAGE_VERSION VERSION_EQUAL PACKAGE_FIND_VERSION)
  set(PACKAGE_VERSION_EXACT TRUE)
endif()
if("${PACKAGE_FIND_VERSION_MAJOR}.${PACKAGE_FIND_VERSION_MINOR}" STREQUAL "${rimonakh_SERIES}" AND NOT PACKAGE_VERSION VERSION_LESS PACKAGE_FIND_VERSION)
  set(PACKAGE_VERSION_COMPATIBLE TRUE)
endif()
