//! Links the static library, and the toolchain's C code that asks malloc for it: their folders are in YUZGONT_LIB and RATTLE_C.

use std::env;

fn main() {
    for (folder, library) in [("YUZGONT_LIB", "yuzgont_c"), ("RATTLE_C", "libc_c")] {
        println!("cargo:rerun-if-env-changed={folder}");
        let place = env::var(folder).unwrap_or_else(|_| panic!("{folder} is the folder of lib{library}.a"));
        println!("cargo:rustc-link-search=native={place}");
        println!("cargo:rustc-link-lib=static={library}");
        println!("cargo:rerun-if-changed={place}/lib{library}.a");
    }
    // `yuz-host memory` refuses requests.
    println!("cargo:rustc-link-arg-bin=yuz-host=-Wl,--wrap=malloc,--wrap=realloc");
}
