//! A drawing as text: lines of the same length, with a mark for each of its parts, and whole cells.

/// The marks of a drawing, each read by a function, line by line. What is wrong with it is told in
/// words.
pub fn grid<T>(
    drawing: &str,
    mark: impl Fn(char) -> Result<T, String>,
    (across, down): (usize, usize),
) -> Result<Vec<Vec<T>>, String> {
    let mut lines = Vec::new();
    for line in drawing.lines() {
        lines.push(line.chars().map(&mark).collect::<Result<Vec<T>, _>>()?);
    }
    let width = lines.first().map_or(0, Vec::len);
    if lines.iter().any(|line| line.len() != width) {
        return Err("the lines of the drawing differ in length".to_string());
    }
    if !width.is_multiple_of(across) || !lines.len().is_multiple_of(down) {
        return Err(format!("cells have {across} marks by {down} lines"));
    }
    Ok(lines)
}
