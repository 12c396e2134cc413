
fn main() {
    let (status, text) = check(br#"{"requests":[{"id":"a","method":"get","url":"Books"}]}"#, 7);
    print!("{}", String::from_utf8(text).unwrap());
    assert_eq!((status, check(b"", 0).0), (0, 1));
}
