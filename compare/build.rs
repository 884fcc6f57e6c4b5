//! Links the proved libraries, unless the feature `mock` stands in for them.

// The rule of the crate in rust/.
#[path = "../rust/build/static_library.rs"]
mod static_library;

fn main() {
    if std::env::var_os("CARGO_FEATURE_MOCK").is_none() {
        static_library::link(&["arw6", "coefficients"]);
    }
}
