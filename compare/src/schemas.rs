//! Where the real schemas stand.

use std::env;
use std::path::{Path, PathBuf};

/// The folder that LUBIKSAN_SCHEMAS names, or else ../shared/schemas beside the repository; none where it is not there.
///
/// # Panics
///
/// Where `CI` is set the schemas must be there.
pub fn folder() -> Option<PathBuf> {
    let named = env::var_os("LUBIKSAN_SCHEMAS").unwrap_or_else(|| "../../shared/schemas".into());
    let folder = Path::new(env!("CARGO_MANIFEST_DIR")).join(named);
    if folder.is_dir() {
        return Some(folder);
    }
    assert!(env::var_os("CI").is_none(), "there is no folder of schemas");
    println!("there is no folder of schemas, they were passed over");
    None
}
