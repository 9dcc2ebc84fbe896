//! The builds of the official C code, each behind one function.
macro_rules! builds {
    ($($name:ident $entry:ident),*) => {
        extern "C" { $(fn $entry(input: *const u8, length: usize, out: *mut u8);)* }
        $(pub fn $name(input: &[u8], out: &mut [u8; 32]) {
            // SAFETY: `out` has the 32 bytes that the wrapper fills.
            unsafe { $entry(input.as_ptr(), input.len(), out.as_mut_ptr()) }
        })*
    };
}
builds!(
    portable official_portable, sse2 official_sse2, sse41 official_sse41,
    avx2 official_avx2, avx512 official_avx512
);
