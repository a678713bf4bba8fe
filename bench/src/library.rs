//! A library as a shared object, whose calls are found by their names.

pub use crate::etherparse::*;
use std::ffi::{c_char, c_int, c_void, CStr, CString};

pub type AddSlice64 = unsafe extern "C" fn(u64, *const u8, usize) -> u64;
pub type AddSlice32 = unsafe extern "C" fn(u32, *const u8, usize) -> u32;
pub type Complement64 = unsafe extern "C" fn(u64) -> u16;
pub type Complement32 = unsafe extern "C" fn(u32) -> u16;
pub type Checksum64 = unsafe extern "C" fn(u64, *const u8, usize) -> u16;
pub type Checksum32 = unsafe extern "C" fn(u32, *const u8, usize) -> u16;
pub type HeaderChecksum = unsafe extern "C" fn(&Ipv4Fields) -> Ipv4HeaderChecksumAnswer;
pub type SetTimeToLive = unsafe extern "C" fn(&mut Ipv4Fields, u8) -> bool;
pub type ViewIpv4 = unsafe extern "C" fn(*const u8, usize) -> Ipv4ViewAnswer;
pub type ReadIpv4 = unsafe extern "C" fn(*const u8, usize) -> Ipv4ReadAnswer;
pub type WriteIpv4 = unsafe extern "C" fn(&Ipv4Fields) -> Ipv4Bytes;
pub type LengthsIpv4 = unsafe extern "C" fn(u16, u8) -> Ipv4LengthsAnswer;
pub type ViewIpv6 = unsafe extern "C" fn(*const u8, usize) -> Ipv6ViewAnswer;
pub type ReadIpv6 = unsafe extern "C" fn(*const u8, usize) -> Ipv6ReadAnswer;
pub type WriteIpv6 = unsafe extern "C" fn(&Ipv6Fields) -> Ipv6Bytes;
pub type Walk = unsafe extern "C" fn(*const u8, usize, u8) -> Ipv6WalkAnswer;
pub type LimitedWalk = unsafe extern "C" fn(*const u8, usize, u8, usize) -> Ipv6WalkAnswer;
pub type SkipOne = unsafe extern "C" fn(*const u8, usize, u8) -> u64;
pub type Loop = unsafe extern "C" fn(*const Slice, usize) -> u64;
pub type WritingLoop = unsafe extern "C" fn(*const Slice, usize, &mut [u8; 60]) -> u64;
pub type LimitedLoop = unsafe extern "C" fn(*const Slice, usize, usize) -> u64;
pub type AddSlices64 = unsafe extern "C" fn(*const Slice, usize) -> u64;
pub type AddSlices32 = unsafe extern "C" fn(*const Slice, usize) -> u32;
pub type Update4 = unsafe extern "C" fn(u16, &[u8; 4], &[u8; 4]) -> u16;
pub type Update16 = unsafe extern "C" fn(u16, &[u8; 16], &[u8; 16]) -> u16;
pub type MakeHeader = unsafe extern "C" fn(&Ipv4Fields) -> *const c_void;
pub type ChecksumOfMade = unsafe extern "C" fn(*const c_void) -> u16;

// A struct of calls, each found under a prefix and its name.
macro_rules! calls {
    ($(#[$doc:meta])* $calls:ident { $($name:ident: $call:ty,)* }) => {
        $(#[$doc])*
        #[derive(Clone, Copy)]
        pub struct $calls {
            $(pub $name: $call,)*
        }

        impl $calls {
            /// The calls of the shared object at a path.
            ///
            /// # Panics
            ///
            /// Where it is not there, or lacks one.
            pub fn open(path: &str, prefix: &str) -> $calls {
                let object = Object::open(path);
                $calls {
                    $($name: unsafe {
                        std::mem::transmute::<*mut c_void, $call>(object.find(prefix, stringify!($name)))
                    },)*
                }
            }
        }
    };
}

calls! {
    /// What is called of the proved library and of both builds of the Rust crate.
    Library {
        u64_16bit_word_add_slice: AddSlice64,
        u32_16bit_word_add_slice: AddSlice32,
        u64_16bit_word_ones_complement: Complement64,
        u32_16bit_word_ones_complement: Complement32,
        u64_16bit_word_checksum: Checksum64,
        u32_16bit_word_checksum: Checksum32,
        ipv4_view: ViewIpv4,
        ipv4_read: ReadIpv4,
        ipv4_write: WriteIpv4,
        ipv4_lengths: LengthsIpv4,
        ipv4_header_checksum: HeaderChecksum,
        ipv4_set_time_to_live: SetTimeToLive,
        ipv6_view: ViewIpv6,
        ipv6_read: ReadIpv6,
        ipv6_write: WriteIpv6,
        ipv6_walk: Walk,
        ipv6_walk_up_to: LimitedWalk,
        skip_one: SkipOne,
        loop_ipv4_views: Loop,
        loop_ipv4_reads: Loop,
        loop_ipv4_checksums: Loop,
        loop_ipv4_forwards: WritingLoop,
        loop_ipv4_updates: WritingLoop,
        loop_ipv6_views: Loop,
        loop_ipv6_reads: Loop,
        loop_ipv6_walks: Loop,
        loop_ipv6_limited_walks: LimitedLoop,
    }
}

calls! {
    /// What the proved library alone has.
    Own {
        u64_16bit_word_add_slices: AddSlices64,
        u32_16bit_word_add_slices: AddSlices32,
        update_4bytes: Update4,
        update_16bytes: Update16,
    }
}

calls! {
    /// A header of the Rust crate that is made before, and its checksum.
    Ready {
        ipv4_header: MakeHeader,
        ipv4_header_checksum_of: ChecksumOfMade,
    }
}

calls! {
    /// Linux's sum.
    Linux {
        add_slice: AddSlice32,
        checksum: Checksum32,
    }
}

/// All that is timed: the Rust crate as a dependency is built and by link-time optimisation, the proved library, and Linux's
/// sum where it was named.
#[derive(Clone, Copy)]
pub struct Libraries {
    pub upstream: Library,
    pub lto: Library,
    pub proved: Library,
    pub own: Own,
    pub ready: [Ready; 2],
    pub linux: Option<Linux>,
}

impl Libraries {
    /// The shared objects of a folder.
    pub fn open(folder: &str) -> Libraries {
        let path = |name: &str| format!("{folder}/{name}.so");
        let linux = path("linux");
        Libraries {
            upstream: Library::open(&path("upstream"), "upstream"),
            lto: Library::open(&path("upstream_lto"), "upstream"),
            proved: Library::open(&path("proved"), "etherparse"),
            own: Own::open(&path("proved"), "etherparse"),
            ready: ["upstream", "upstream_lto"].map(|name| Ready::open(&path(name), "upstream")),
            linux: std::path::Path::new(&linux).exists().then(|| Linux::open(&linux, "linux")),
        }
    }
}

extern "C" {
    fn dlopen(path: *const c_char, flags: c_int) -> *mut c_void;
    fn dlsym(object: *mut c_void, name: *const c_char) -> *mut c_void;
    fn dlerror() -> *const c_char;
}

// All names are looked for at once.
const RTLD_NOW: c_int = 2;

struct Object(*mut c_void);

impl Object {
    fn open(path: &str) -> Object {
        let c_path = CString::new(path).expect("a path");
        let object = unsafe { dlopen(c_path.as_ptr(), RTLD_NOW) };
        assert!(!object.is_null(), "{}", unsafe { CStr::from_ptr(dlerror()) }.to_string_lossy());
        Object(object)
    }

    fn find(&self, prefix: &str, name: &str) -> *mut c_void {
        let full = format!("{prefix}_{name}");
        let c_name = CString::new(full.as_str()).expect("a name");
        let found = unsafe { dlsym(self.0, c_name.as_ptr()) };
        assert!(!found.is_null(), "there is no {full}");
        found
    }
}
