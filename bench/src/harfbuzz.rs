//! HarfBuzz's subset API, if its library is installed (Debian: libharfbuzz-subset0). It is found
//! when the program runs, so that building needs nothing of it.
use crate::subjects::Job;
use std::ffi::{c_char, c_int, c_uint, c_void, CStr};
use std::ptr::null_mut;

type Object = *mut c_void;

extern "C" {
    fn dlopen(name: *const c_char, mode: c_int) -> Object;
    fn dlsym(library: Object, name: *const c_char) -> Object;
}

const RTLD_NOW: c_int = 2;
const READ_ONLY: c_int = 1;
const DROP_TABLES: c_int = 3;
/// HB_SUBSET_FLAGS_NOTDEF_OUTLINE and HB_SUBSET_FLAGS_GLYPH_NAMES: what Pitavele keeps too.
const KEEP: c_uint = 0x40 | 0x80;
/// Tables that Pitavele has no part in; HarfBuzz would spend most of its time on the layout.
const DROPPED: [&[u8; 4]; 7] = [b"GSUB", b"GPOS", b"GDEF", b"cmap", b"OS/2", b"gasp", b"kern"];

pub struct HarfBuzz {
    blob_create: extern "C" fn(*const u8, c_uint, c_int, Object, Object) -> Object,
    blob_destroy: extern "C" fn(Object),
    blob_length: extern "C" fn(Object) -> c_uint,
    face_create: extern "C" fn(Object, c_uint) -> Object,
    face_destroy: extern "C" fn(Object),
    face_blob: extern "C" fn(Object) -> Object,
    input_create: extern "C" fn() -> Object,
    input_destroy: extern "C" fn(Object),
    input_glyphs: extern "C" fn(Object) -> Object,
    input_set: extern "C" fn(Object, c_int) -> Object,
    input_flags: extern "C" fn(Object, c_uint),
    set_add: extern "C" fn(Object, c_uint),
    subset: extern "C" fn(Object, Object) -> Object,
    version: extern "C" fn() -> *const c_char,
}

impl HarfBuzz {
    pub fn find() -> Option<HarfBuzz> {
        let library = unsafe { dlopen(c"libharfbuzz-subset.so.0".as_ptr(), RTLD_NOW) };
        if library.is_null() {
            return None;
        }
        // Each symbol is used at the type that HarfBuzz's headers give it.
        macro_rules! symbol {
            ($name:literal) => {{
                let found = unsafe { dlsym(library, $name.as_ptr()) };
                if found.is_null() {
                    return None;
                }
                unsafe { std::mem::transmute(found) }
            }};
        }
        Some(HarfBuzz {
            blob_create: symbol!(c"hb_blob_create"),
            blob_destroy: symbol!(c"hb_blob_destroy"),
            blob_length: symbol!(c"hb_blob_get_length"),
            face_create: symbol!(c"hb_face_create"),
            face_destroy: symbol!(c"hb_face_destroy"),
            face_blob: symbol!(c"hb_face_reference_blob"),
            input_create: symbol!(c"hb_subset_input_create_or_fail"),
            input_destroy: symbol!(c"hb_subset_input_destroy"),
            input_glyphs: symbol!(c"hb_subset_input_glyph_set"),
            input_set: symbol!(c"hb_subset_input_set"),
            input_flags: symbol!(c"hb_subset_input_set_flags"),
            set_add: symbol!(c"hb_set_add"),
            subset: symbol!(c"hb_subset_or_fail"),
            version: symbol!(c"hb_version_string"),
        })
    }

    pub fn version(&self) -> String {
        unsafe { CStr::from_ptr((self.version)()) }.to_string_lossy().into_owned()
    }

    /// The length of HarfBuzz's file, which holds more than Pitavele's; none if it fails.
    pub fn subset(&self, job: &Job) -> Option<usize> {
        let nothing = null_mut();
        let length = job.font.len() as c_uint;
        let blob = (self.blob_create)(job.font.as_ptr(), length, READ_ONLY, nothing, nothing);
        let face = (self.face_create)(blob, job.index);
        let input = (self.input_create)();
        let glyphs = (self.input_glyphs)(input);
        job.ids.iter().for_each(|id| (self.set_add)(glyphs, (*id).into()));
        let dropped = (self.input_set)(input, DROP_TABLES);
        DROPPED.iter().for_each(|tag| (self.set_add)(dropped, u32::from_be_bytes(**tag)));
        (self.input_flags)(input, KEEP);
        let made = (self.subset)(face, input);
        let length = (!made.is_null()).then(|| {
            let file = (self.face_blob)(made);
            let length = (self.blob_length)(file) as usize;
            (self.blob_destroy)(file);
            (self.face_destroy)(made);
            length
        });
        (self.input_destroy)(input);
        (self.face_destroy)(face);
        (self.blob_destroy)(blob);
        length
    }
}
