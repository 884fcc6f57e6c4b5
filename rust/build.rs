//! Links the proved library `libarw6.a`.

#[path = "build/static_library.rs"]
mod static_library;

fn main() {
    static_library::link(&["arw6"]);
}
