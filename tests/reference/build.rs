//! Links the product's `libpool.a` from `POOL_LIB_DIR`; without it the reference stands in for the library. Links the calls in C
//! that the library is timed against from `POOL_LIMIT_DIR` (tests/speed), with FLINT if `POOL_FLINT` has a word.
fn main() {
    println!("cargo:rustc-check-cfg=cfg(pool_lib, pool_limit, pool_flint)");
    for (variable, archive) in [("POOL_LIB_DIR", "pool"), ("POOL_LIMIT_DIR", "limit")] {
        println!("cargo:rerun-if-env-changed={variable}");
        if let Ok(directory) = std::env::var(variable) {
            println!("cargo:rerun-if-changed={directory}/lib{archive}.a");
            println!("cargo:rustc-link-search=native={directory}");
            println!("cargo:rustc-link-lib=static={archive}");
            println!("cargo:rustc-cfg=pool_{}", if archive == "pool" { "lib" } else { archive });
        }
    }
    println!("cargo:rerun-if-env-changed=POOL_FLINT");
    if std::env::var("POOL_FLINT").is_ok_and(|word| !word.is_empty()) {
        println!("cargo:rustc-link-lib=dylib=flint");
        println!("cargo:rustc-link-lib=dylib=gmp");
        println!("cargo:rustc-cfg=pool_flint");
    }
}
