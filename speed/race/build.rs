//! Links the objects that speed/build made: the proved loops, and the plain C.
fn main() {
    println!("cargo:rerun-if-env-changed=SPEED_OBJECTS");
    for object in std::env::var("SPEED_OBJECTS").expect("SPEED_OBJECTS").split(':') {
        println!("cargo:rerun-if-changed={object}");
        println!("cargo:rustc-link-arg-bins={object}");
    }
}
