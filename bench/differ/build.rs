//! Links the static libraries that `bench/differ.sh` built: their paths stand in DIFFER_LINK, one space between two.

fn main() {
    println!("cargo:rerun-if-env-changed=DIFFER_LINK");
    for library in std::env::var("DIFFER_LINK").unwrap_or_default().split_whitespace() {
        println!("cargo:rerun-if-changed={library}");
        println!("cargo:rustc-link-arg={library}");
    }
}
