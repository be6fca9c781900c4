# find_package(rimonakh) gives the target rimonakh::rimonakh, the archive with its headers
get_filename_component(rimonakh_PREFIX "${CMAKE_CURRENT_LIST_DIR}/../../.." ABSOLUTE)
if(NOT TARGET rimonakh::rimonakh)
  add_library(rimonakh::rimonakh STATIC IMPORTED)
  set_target_properties(rimonakh::rimonakh PROPERTIES
    IMPORTED_LOCATION "${rimonakh_PREFIX}/lib/librimonakh.a"
    INTERFACE_INCLUDE_DIRECTORIES "${rimonakh_PREFIX}/include")
endif()
