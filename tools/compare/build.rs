//! Links the port.

fn main() {
    let folder = std::env::var("PORT_LIB").expect("PORT_LIB names the folder of libwuzsanget.a");
    println!("cargo:rerun-if-env-changed=PORT_LIB");
    println!("cargo:rerun-if-changed={folder}/libwuzsanget.a");
    println!("cargo:rustc-link-search=native={folder}");
    println!("cargo:rustc-link-lib=static=wuzsanget");
}
