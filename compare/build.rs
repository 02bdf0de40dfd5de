// Links the proved library: compare/build says where it is.
fn main() {
    println!("cargo:rerun-if-env-changed=DRALOVIKA_LIB");
    let dir = std::env::var("DRALOVIKA_LIB").expect("DRALOVIKA_LIB: the folder of libdralovika.a (compare/build sets it)");
    println!("cargo:rerun-if-changed={dir}/libdralovika.a");
    println!("cargo:rustc-link-search=native={dir}");
    println!("cargo:rustc-link-lib=static=dralovika");
}
