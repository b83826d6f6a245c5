use yuharopu::{Error, Store};

fn main() -> Result<(), Error> {
    let mut store = Store::builder().ceiling(4).frames(8).create()?;
    store.begin_update(None)?;
    store.write_at(16_384, b"hello")?;
    store.commit_update()?;

    let mut text = [0; 5];
    assert_eq!(store.read_at(16_384, &mut text), Ok(true));
    assert_eq!(&text, b"hello");
    println!("{}", store.truncate(1 << 20).unwrap_err());
    Ok(())
}
