//! Looks two attributes of a path up.
use yektrod::{Case, Engine, Place};

fn main() -> Result<(), yektrod::Error> {
    let mut engine = Engine::new()?;
    engine.add(b"*.sh text eol=lf\n", Place::top(), true)?;
    engine.select(&["text", "eol"])?;
    for answer in engine.ask(b"script.sh", Case::Sensitive, Some(false))? {
        println!("{}: {}", String::from_utf8_lossy(answer.name), answer.state);
    }
    Ok(())
}
