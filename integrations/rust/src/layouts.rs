//! The structs of dia.h.

use std::ffi::c_void;
use std::mem::{offset_of, size_of};

pub const MAX_NAME: usize = 128;

#[repr(C)]
pub struct RawHandle {
    pub private: *mut c_void,
    pub state: u32,
}

#[repr(C)]
#[derive(Default)]
pub struct Problem {
    pub kind: u32,
    pub line: u32,
    pub token: u32,
}

#[repr(C)]
pub struct Fault {
    pub at: usize,
    pub name_count: usize,
    pub slot_count: usize,
    pub kind: u32,
    pub token: u32,
    pub has_place: u32,
    pub name: [u8; MAX_NAME],
    pub slot: [u8; MAX_NAME],
}

#[repr(C)]
#[derive(Clone, Copy, Default)]
pub struct Verdict {
    pub outcome: u32,
    pub command: u32,
    pub code: u32,
    pub place: u32,
    pub reason: u32,
    pub subject: u32,
    pub avp_code: u32,
    pub avp_vendor: u32,
    pub reserved: [u32; 4],
}

#[repr(C)]
pub struct Command {
    pub name_count: usize,
    pub command: u32,
    pub code: u32,
    pub kind: u32,
    pub proxy: u32,
    pub has_app: u32,
    pub app: u32,
    pub name: [u8; MAX_NAME],
}

#[repr(C)]
pub struct Entry {
    pub name_count: usize,
    pub code: u32,
    pub vendor: u32,
    pub format: u32,
    pub mandatory: u32,
    pub name: [u8; MAX_NAME],
}

#[repr(C)]
#[derive(Clone, Copy)]
pub struct Avp {
    pub place: usize,
    pub depth: usize,
    pub length: usize,
    pub data_place: usize,
    pub data_length: usize,
    pub name_count: usize,
    pub code: u32,
    pub vendor: u32,
    pub flags: u32,
    pub format: u32,
    pub name: [u8; MAX_NAME],
    pub reserved: [u64; 4],
}

#[repr(C)]
#[derive(Default)]
pub struct Head {
    pub length: u32,
    pub flags: u32,
    pub code: u32,
    pub app: u32,
    pub hop: u32,
    pub e2e: u32,
}

#[repr(C)]
#[derive(Default)]
pub struct Fed {
    pub taken: usize,
    pub done: u32,
}

#[repr(C)]
pub struct Ip {
    pub is_v6: u32,
    pub bytes: [u8; 16],
}

#[repr(C)]
#[derive(Clone, Copy, Default)]
pub struct App {
    pub is_acct: u32,
    pub id: u32,
    pub has_vendor: u32,
    pub vendor: u32,
}

#[repr(C)]
#[derive(Clone, Copy, Default)]
pub struct Numbers {
    pub vendor: u32,
    pub has_state_id: u32,
    pub state_id: u32,
    pub hop: u32,
    pub e2e: u32,
}

#[repr(C)]
pub struct PeerOptions {
    pub size: usize,
    pub role: u32,
    pub manner: u32,
    pub host: *const u8,
    pub host_len: usize,
    pub realm: *const u8,
    pub realm_len: usize,
    pub product: *const u8,
    pub product_len: usize,
    pub addresses: *const Ip,
    pub address_count: usize,
    pub apps: *const App,
    pub app_count: usize,
    pub numbers: Numbers,
    pub reserved: [u64; 8],
}

// The sizes and places of c/tests/layout.c, on machines with 64 bits.
const _: () = {
    assert!(size_of::<RawHandle>() == 16 && offset_of!(RawHandle, state) == 8);
    assert!(size_of::<Problem>() == 12 && size_of::<Fault>() == 296 && offset_of!(Fault, slot) == 164);
    assert!(size_of::<Verdict>() == 48 && offset_of!(Verdict, reserved) == 32);
    assert!(size_of::<Command>() == 160 && offset_of!(Command, name) == 32);
    assert!(size_of::<Entry>() == 152 && offset_of!(Entry, name) == 24);
    assert!(size_of::<Avp>() == 224 && offset_of!(Avp, code) == 48 && offset_of!(Avp, reserved) == 192);
    assert!(size_of::<Head>() == 24 && size_of::<Fed>() == 16 && offset_of!(Fed, done) == 8);
    assert!(size_of::<Ip>() == 20 && size_of::<App>() == 16 && size_of::<Numbers>() == 20);
    assert!(
        size_of::<PeerOptions>() == 184 && offset_of!(PeerOptions, numbers) == 96 && offset_of!(PeerOptions, reserved) == 120
    );
};
