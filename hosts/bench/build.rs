// Links the engine: FANZSOREB_LIB is its folder, FANZSOREB_NAME its name without lib and .a.
fn main() {
    let folder = std::env::var("FANZSOREB_LIB").unwrap_or_else(|_| "../../build".to_string());
    let name = std::env::var("FANZSOREB_NAME").unwrap_or_else(|_| "fanzsoreb".to_string());
    println!("cargo:rustc-link-search=native={}", std::fs::canonicalize(&folder).map(|p| p.display().to_string()).unwrap_or(folder));
    println!("cargo:rustc-link-lib=static={}", name);
    println!("cargo:rerun-if-env-changed=FANZSOREB_LIB");
    println!("cargo:rerun-if-env-changed=FANZSOREB_NAME");
}
