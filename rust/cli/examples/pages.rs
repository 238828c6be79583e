//! Writes the manual pages and completions: `cargo run --example pages -- FOLDER DAY`.

fn main() -> std::io::Result<()> {
    let folder = std::env::args_os().nth(1).expect("say a folder");
    for (name, text) in cli::pages::all(&std::env::args().nth(2).expect("say a day")) {
        let path = std::path::Path::new(&folder).join(name);
        std::fs::create_dir_all(path.parent().expect("a folder"))?;
        std::fs::write(path, text)?;
    }
    Ok(())
}
