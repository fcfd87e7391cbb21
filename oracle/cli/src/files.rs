//! Scenes in text form, in files.

use std::path::Path;

/// The bytes of a scene in text form.
pub fn scene_file(file: &str) -> Result<Vec<u8>, String> {
    let text = std::fs::read_to_string(file).map_err(|error| format!("{file}: {error}"))?;
    scene::from_text(&text).map_err(|error| format!("{file}: {error}"))
}

/// The directed scenes of a folder, by name.
pub fn directed(folder: &Path) -> Result<Vec<String>, String> {
    let entries = std::fs::read_dir(folder).map_err(|error| error.to_string())?;
    let mut files: Vec<String> = entries
        .filter_map(|entry| entry.ok()?.file_name().into_string().ok())
        .filter(|name| name.ends_with(".txt"))
        .collect();
    files.sort();
    Ok(files)
}
