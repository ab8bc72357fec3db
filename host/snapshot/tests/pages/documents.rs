//! The pictures of demonstration pages that the documents show.

use std::fs;
use std::path::Path;

use binturamis::Panel;
use snapshot::png::png;
use snapshot::raster::Raster;

/// A file of `docs` is, byte for byte, the picture of the panel that the page was played to.
pub fn the_picture_in_the_documents_is_the_one_drawn(mut panel: Panel, name: &str) {
    panel.draw().expect("a right page");
    let wanted = png(&Raster::of_panel(&panel));
    let documents = Path::new(env!("CARGO_MANIFEST_DIR")).join("../../docs");
    let kept = fs::read(documents.join(name));
    let kept = kept.unwrap_or_else(|error| panic!("docs/{name} can be read: {error:?}"));
    assert!(
        kept == wanted,
        "docs/{name} is of an earlier page: run `make demo` and copy target/{name} there"
    );
}
