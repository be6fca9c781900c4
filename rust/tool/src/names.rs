//! Names that people know: forms, protocols, authentication services, interfaces and classes.

use rimonakh::{Guid, Reference};
use std::fmt::{self, Display};

/// The form of a reference by its flags.
pub fn form(flags: u32) -> &'static str {
    match flags {
        Reference::STANDARD => "standard",
        Reference::HANDLER => "handler",
        Reference::CUSTOM => "custom",
        _ => "extended",
    }
}

/// A protocol: documents 001, section 3.2, and 003, figure 13; 0x0F is MS-RPCE's.
pub fn protocol(tower: u16) -> Option<&'static str> {
    Some(match tower {
        0x04 => "ncacn_dnet_nsp",
        0x07 => "ncacn_ip_tcp",
        0x08 => "ncadg_ip_udp",
        0x0C => "ncacn_spx",
        0x0D => "ncacn_nb_ipx",
        0x0E => "ncadg_ipx",
        0x0F => "ncacn_np",
        0x10 => "ncalrpc",
        0x12 => "ncacn_nb_nb",
        0x1F => "ncacn_http",
        _ => return None,
    })
}

/// An authentication service (MS-RPCE, section 2.2.1.1.7).
pub fn service(number: u16) -> Option<&'static str> {
    Some(match number {
        0x09 => "SPNEGO",
        0x0A => "NTLM",
        0x0E => "SChannel",
        0x10 => "Kerberos",
        0x44 => "Netlogon",
        0xFF | 0xFFFF => "default",
        _ => return None,
    })
}

/// A number with its name where it has one.
pub struct Named(pub u16, pub Option<&'static str>);

impl Display for Named {
    fn fmt(&self, f: &mut fmt::Formatter<'_>) -> fmt::Result {
        match self.1 {
            Some(name) => write!(f, "{} ({name})", self.0),
            None => write!(f, "{} ({:#06x})", self.0, self.0),
        }
    }
}

/// GUIDs that end in 0000-0000-c000-000000000046, by their first field (MS-DCOM, section 1.9, and the Windows SDK).
const COMMON: &[(u32, &str)] = &[
    (0x0000, "IUnknown"),
    (0x0001, "IClassFactory"),
    (0x0131, "IRemUnknown"),
    (0x0143, "IRemUnknown2"),
    (0x01A0, "IRemoteSCMActivator"),
    (0x01A2, "IActivationPropertiesIn"),
    (0x01A3, "IActivationPropertiesOut"),
    (0x01A4, "CLSID_ServerLocationInfo"),
    (0x01A5, "CLSID_ActivationContextInfo"),
    (0x01A6, "CLSID_SecurityInfo"),
    (0x01AA, "CLSID_ScmRequestInfo"),
    (0x01AB, "CLSID_InstantiationInfo"),
    (0x01AD, "CLSID_InstanceInfo"),
    (0x01B6, "CLSID_ScmReplyInfo"),
    (0x01B9, "CLSID_SpecialSystemProperties"),
    (0x01C0, "IContext"),
    (0x031B, "CLSID_ErrorObject"),
    (0x031C, "CLSID_ERROR_EXTENSION"),
    (0x0334, "CLSID_CONTEXT_EXTENSION"),
    (0x0338, "CLSID_ActivationPropertiesIn"),
    (0x0339, "CLSID_ActivationPropertiesOut"),
    (0x033A, "CLSID_InProcFreeMarshaler"),
    (0x033B, "CLSID_ContextMarshaler"),
    (0x020400, "IDispatch"),
];

/// GUIDs that end in 011e-11d0-9675-0020afd8adb3: OPC Data Access.
const OPC: &[(u32, &str)] = &[
    (0x39C1_3A4D, "IOPCServer"),
    (0x39C1_3A4E, "IOPCServerPublicGroups"),
    (0x39C1_3A4F, "IOPCBrowseServerAddressSpace"),
    (0x39C1_3A50, "IOPCGroupStateMgt"),
    (0x39C1_3A51, "IOPCPublicGroupStateMgt"),
    (0x39C1_3A52, "IOPCSyncIO"),
    (0x39C1_3A53, "IOPCAsyncIO"),
    (0x39C1_3A54, "IOPCItemMgt"),
    (0x39C1_3A55, "IEnumOPCItemAttributes"),
    (0x39C1_3A70, "IOPCDataCallback"),
    (0x39C1_3A71, "IOPCAsyncIO2"),
    (0x39C1_3A72, "IOPCItemProperties"),
];

/// A well-known interface or class.
pub fn guid(guid: &Guid) -> Option<&'static str> {
    const COM: [u8; 8] = [0xC0, 0, 0, 0, 0, 0, 0, 0x46];
    const PLANT: [u8; 8] = [0x96, 0x75, 0x00, 0x20, 0xAF, 0xD8, 0xAD, 0xB3];
    let others = [
        (
            Guid::new(
                0x99FC_FEC4,
                0x5260,
                0x101B,
                [0xBB, 0xCB, 0, 0xAA, 0, 0x21, 0x34, 0x7A],
            ),
            "IObjectExporter",
        ),
        (
            Guid::new(
                0x4D9F_4AB8,
                0x7D1C,
                0x11CF,
                [0x86, 0x1E, 0, 0x20, 0xAF, 0x6E, 0x7C, 0x57],
            ),
            "IActivation",
        ),
        (
            Guid::new(
                0x1CF2_B120,
                0x547D,
                0x101B,
                [0x8E, 0x65, 8, 0, 0x2B, 0x2B, 0xD1, 0x19],
            ),
            "IErrorInfo",
        ),
        (Guid::NIL, "nil"),
    ];
    let common = COMMON
        .iter()
        .map(|(d1, name)| (Guid::new(*d1, 0, 0, COM), *name));
    let opc = OPC
        .iter()
        .map(|(d1, name)| (Guid::new(*d1, 0x011E, 0x11D0, PLANT), *name));
    let mut all = common.chain(opc).chain(others);
    all.find(|(known, _)| known == guid).map(|(_, name)| name)
}

/// A GUID with its name where it has one.
pub struct Known(pub Guid);

impl Display for Known {
    fn fmt(&self, f: &mut fmt::Formatter<'_>) -> fmt::Result {
        write!(f, "{}", self.0)?;
        guid(&self.0).map_or(Ok(()), |name| write!(f, " ({name})"))
    }
}
