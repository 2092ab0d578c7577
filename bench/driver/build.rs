//! Links the port's archive, from the folder that PORT names.

fn main() {
    let folder = std::env::var("PORT").expect("PORT names the folder of libport.a");
    println!("cargo::rerun-if-env-changed=PORT");
    println!("cargo::rerun-if-changed={folder}/libport.a");
    println!("cargo::rustc-link-search=native={folder}");
    println!("cargo::rustc-link-lib=static=port");
}
