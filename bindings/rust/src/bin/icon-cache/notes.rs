//! What is noted on an image.

use crate::commands::{say_refused, say_refused_for};
use crate::output::{Output, Status};
use crate::show;
use icon_cache::notes::{self, Rectangle};
use icon_cache::{Image, Refusal};

/// Shows the notes below the line of the image, up to the first that is refused. What is
/// not there leaves no line.
pub fn say(output: &mut Output, cache: &[u8], image: &Image) -> Status {
    let data = image.data_offset as usize;
    match say_all(output, cache, data) {
        Ok(()) => Status::Good,
        // No field that the call has read names the image data.
        Err(refusal) if refusal.place == 0 => {
            let at = show::offset(data);
            let why = format!(
                "rule {}: the image data at {at} leaves the cache",
                refusal.number
            );
            say_refused_for(output, "    notes", &why)
        }
        Err(refusal) => say_refused(output, "    notes", &refusal),
    }
}

fn say_all(output: &mut Output, cache: &[u8], data: usize) -> Result<(), Refusal> {
    match notes::rectangle(cache, data) {
        Ok(Rectangle { x0, y0, x1, y1 }) => {
            output.line(&format!("    rectangle {x0},{y0} to {x1},{y1}"));
        }
        Err(refusal) if refusal.number == Refusal::NO_NOTE => {}
        Err(refusal) => return Err(refusal),
    }
    for point in notes::attach_points(cache, data) {
        let point = point?;
        output.line(&format!("    attach point {},{}", point.x, point.y));
    }
    for name in notes::display_names(cache, data) {
        let name = name?;
        let language = show::bytes(name.language);
        output.line(&format!(
            "    display name in {language}: {}",
            show::bytes(name.text)
        ));
    }
    Ok(())
}
