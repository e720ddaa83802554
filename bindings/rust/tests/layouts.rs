//! The types that the crate hands to the library have the sizes with which the library was built.

// The crate is linked for its library. Its declarations are private to it, so the test reads the same file.
use camel as _;

#[allow(dead_code)]
#[path = "../src/ffi.rs"]
mod ffi;

#[test]
fn types_have_the_sizes_of_the_library() {
    let mut of_library = [0; 32];
    // SAFETY: the array has at least as many places as are said.
    let count = unsafe { ffi::camel_layouts(of_library.as_mut_ptr(), of_library.len()) };
    let of_library: Vec<_> = of_library.map(|size| size as usize).into();
    assert_eq!(of_library[..count as usize], *ffi::SIZES);
}

#[test]
fn the_versions_are_one() {
    assert_eq!(camel::abi_version(), ffi::ABI_VERSION);
}
