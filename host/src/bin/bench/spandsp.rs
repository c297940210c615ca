//! spandsp's reader of bits, from the shared object that `speed/run` makes of `speed/spandsp_reader.c`.
use std::ffi::{c_char, c_int, c_void, CStr, CString};
use std::io;
use std::mem::transmute;

extern "C" {
    fn dlopen(path: *const c_char, flags: c_int) -> *mut c_void;
    fn dlsym(object: *mut c_void, name: *const c_char) -> *mut c_void;
}

/// Every name is looked up at once, so that none is during a measurement.
const RTLD_NOW: c_int = 2;

type End = *mut c_void;
type Answerer = unsafe extern "C" fn() -> End;
type Begin = unsafe extern "C" fn(End);
type Hear = unsafe extern "C" fn(End, u8);
type HearMany = unsafe extern "C" fn(End, *const u8, usize);
type HearRearmed = unsafe extern "C" fn(End, u8) -> bool;
type HearManyRearmed = unsafe extern "C" fn(End, *const u8, usize) -> usize;

/// An answering end and what it is called with. It is kept to the end of the program, as the shared object is.
pub struct Spandsp {
    end: End,
    begin: Begin,
    hear: Hear,
    hear_many: HearMany,
    hear_rearmed: HearRearmed,
    hear_many_rearmed: HearManyRearmed,
}

impl Spandsp {
    /// Loads the shared object of this path.
    pub fn load(path: &str) -> io::Result<Self> {
        let name = CString::new(path)?;
        // SAFETY: the path is a string of C; what is loaded keeps the types that spandsp_reader.c declares.
        unsafe {
            let object = dlopen(name.as_ptr(), RTLD_NOW);
            if object.is_null() {
                return Err(io::Error::other(format!("{path} cannot be loaded")));
            }
            let function = |name: &CStr| {
                let function = dlsym(object, name.as_ptr());
                if function.is_null() {
                    return Err(io::Error::other(format!("{path} has no {name:?}")));
                }
                Ok(function)
            };
            let end = transmute::<*mut c_void, Answerer>(function(c"spandsp_answerer")?)();
            if end.is_null() {
                return Err(io::Error::other(format!("{path} gives no answering end")));
            }
            Ok(Spandsp {
                end,
                begin: transmute::<*mut c_void, Begin>(function(c"spandsp_begin")?),
                hear: transmute::<*mut c_void, Hear>(function(c"spandsp_hear")?),
                hear_many: transmute::<*mut c_void, HearMany>(function(c"spandsp_hear_many")?),
                hear_rearmed: transmute::<*mut c_void, HearRearmed>(function(c"spandsp_hear_rearmed")?),
                hear_many_rearmed: transmute::<*mut c_void, HearManyRearmed>(function(c"spandsp_hear_many_rearmed")?),
            })
        }
    }

    // SAFETY, of all that follow: the end is spandsp's own, and one call at a time uses it, as `Spandsp` is not shared
    // between threads; a slice is lent for the call alone, with its length.

    /// Starts to listen, and hears the bits as it stands, one a call.
    pub fn one_a_call(&self, bits: &[u8]) {
        unsafe { (self.begin)(self.end) };
        for &bit in bits {
            unsafe { (self.hear)(self.end, bit) };
        }
    }

    /// The same, many at once.
    pub fn many_at_once(&self, bits: &[u8]) {
        unsafe {
            (self.begin)(self.end);
            (self.hear_many)(self.end, bits.as_ptr(), bits.len());
        }
    }

    /// Starts to listen, and hears the bits re-armed, one a call; answers how many menus it accepted.
    pub fn one_a_call_rearmed(&self, bits: &[u8]) -> usize {
        unsafe { (self.begin)(self.end) };
        bits.iter().filter(|&&bit| unsafe { (self.hear_rearmed)(self.end, bit) }).count()
    }

    /// The same, many at once.
    pub fn many_at_once_rearmed(&self, bits: &[u8]) -> usize {
        unsafe {
            (self.begin)(self.end);
            (self.hear_many_rearmed)(self.end, bits.as_ptr(), bits.len())
        }
    }
}
