//! Libraries that are loaded while the program runs: two of them export the same names, and are in one
//! process all the same.

#![allow(unsafe_code)]

use crate::folder::Folder;
use ods1::kinds::{
    Create, Delete, Extend, Judge, LookUp, OfFile, OfFileAndPlace, OfImage, OfNumber,
    OfNumberAndPlace, OfPlace,
};
use std::ffi::{c_char, c_int, c_void, CStr, CString};
use std::fs;
use std::mem;
use std::os::unix::ffi::OsStrExt;
use std::path::Path;
use std::process::Command;

#[link(name = "dl")]
extern "C" {
    fn dlopen(path: *const c_char, flags: c_int) -> *mut c_void;
    fn dlsym(library: *mut c_void, name: *const c_char) -> *mut c_void;
    fn dlerror() -> *const c_char;
}

/// To find all that a library needs at once, and to lend its names to nobody.
const NOW_AND_LOCAL: c_int = 2;

/// Not to load a library that is not loaded already.
const NO_LOAD: c_int = 4;

/// A library that was loaded. It stays loaded until the program ends.
pub struct Loaded {
    pub open_volume: OfImage,
    pub open_file: OfFile,
    pub map: OfFileAndPlace,
    pub look_up: LookUp,
    pub next_record: OfFileAndPlace,
    pub judge: Judge,
    pub create: Create,
    pub extend: Extend,
    pub delete: Delete,
    pub geometry: OfImage,
    pub label: OfImage,
    pub header: OfNumber,
    pub pointer: OfNumberAndPlace,
    pub attributes: OfFile,
    pub extent: OfFileAndPlace,
    pub free_run: OfPlace,
}

/// By how many bytes more the functions of each copy are moved: it is 16 more than four times 64, so that
/// four copies in a row have a function at all places that it can have in 64 bytes.
const MOVED: usize = 272;

impl Loaded {
    /// Makes shared objects of an archive, and loads them. The name is of this archive alone: what has the
    /// path of an object that is loaded would not be loaded again.
    pub fn copies_of(archive: &Path, name: &str, copies: usize) -> Vec<Loaded> {
        let folder = Folder::new(name);
        let copies = (1..=copies).map(|copy| {
            let object = folder.path(format!("{copy}.so"));
            link(archive, &folder, MOVED * copy, &object);
            Library::open(&object).functions()
        });
        copies.collect()
    }
}

/// Makes a shared object of an archive, whose functions lie behind so many bytes.
fn link(archive: &Path, folder: &Folder, bytes: usize, object: &Path) {
    let before = folder.path("before.s");
    let text = format!(".text\n.skip {bytes}\n.section .note.GNU-stack,\"\",@progbits\n");
    fs::write(&before, text).expect("a file can be written");
    let mut link = Command::new("gcc");
    link.arg("-shared").arg("-o").arg(object).arg(before);
    // The archive's own calls reach its own functions straight, as where it is linked to a program.
    link.arg("-Wl,-Bsymbolic,--whole-archive").arg(archive);
    let status = link.arg("-Wl,--no-whole-archive").status();
    let status = status.expect("gcc can be run");
    assert!(status.success(), "{}: {status}", archive.display());
}

/// What dlopen answered.
struct Library(*mut c_void);

impl Library {
    fn open(object: &Path) -> Library {
        let path = CString::new(object.as_os_str().as_bytes()).expect("a path without nulls");
        // SAFETY: the path ends with a null. The library has nothing that runs when it is loaded.
        let (library, already) = unsafe {
            let already = dlopen(path.as_ptr(), NOW_AND_LOCAL | NO_LOAD);
            (dlopen(path.as_ptr(), NOW_AND_LOCAL), already)
        };
        assert!(already.is_null(), "{}: loaded already", object.display());
        assert!(!library.is_null(), "{}", Library::error());
        Library(library)
    }

    /// What went wrong last.
    fn error() -> String {
        // SAFETY: the text that dlerror answers ends with a null, and stays until the next call.
        unsafe {
            let text = dlerror();
            assert!(!text.is_null(), "there is an error");
            CStr::from_ptr(text).to_string_lossy().into_owned()
        }
    }

    /// A function, whose kind the caller knows.
    fn function<Kind: Copy>(&self, name: &str) -> Kind {
        assert!(mem::size_of::<Kind>() == mem::size_of::<*mut c_void>());
        let name = CString::new(format!("ods1_{name}")).expect("a name without nulls");
        // SAFETY: the library is open, and the name ends with a null.
        let symbol = unsafe { dlsym(self.0, name.as_ptr()) };
        assert!(!symbol.is_null(), "{}", Library::error());
        // SAFETY: the symbol is a function of this kind, and as large as a pointer to one.
        unsafe { mem::transmute_copy(&symbol) }
    }

    fn functions(&self) -> Loaded {
        Loaded {
            open_volume: self.function("open_volume"),
            open_file: self.function("open_file"),
            map: self.function("map"),
            look_up: self.function("look_up"),
            next_record: self.function("next_record"),
            judge: self.function("judge"),
            create: self.function("create"),
            extend: self.function("extend"),
            delete: self.function("delete"),
            geometry: self.function("geometry"),
            label: self.function("label"),
            header: self.function("header"),
            pointer: self.function("pointer"),
            attributes: self.function("attributes"),
            extent: self.function("extent"),
            free_run: self.function("free_run"),
        }
    }
}
