// README's server for pages in browsers: lists come in, and lists go out.

fn receive(list: &[u8], r: u64, log: &mut [u8], size: &mut usize) -> Result<Vec<Vec<u8>>, ot::Refusal> {
    let mut edit = vec![0; ot::RECORD];
    let n = ot::from_json(list, &mut edit)?;
    let mut parts = vec![0; ot::COUNTERPARTS];
    let (added, n) = ot::accept(&edit[..n], r, log, &mut parts)?;
    *size += added;
    let mut lists = Vec::new();
    let mut rest = &parts[..n];
    while !rest.is_empty() {
        let (part, others) = rest.split_at(ot::check(rest)?);
        let mut list = vec![0; ot::JSON];
        let n = ot::to_json(part, &mut list)?;
        list.truncate(n);
        lists.push(list);
        rest = others;
    }
    Ok(lists)
}

#[test]
fn pages_send_and_take_lists() {
    let label = "Geräte sperren".as_bytes();
    let mut log = vec![0; ot::LOG];
    let mut size = ot::open(ot::num_chars(label) as u64, &mut log).unwrap();
    let mut page = |list: &str, r: u64| {
        let lists = receive(list.as_bytes(), r, &mut log, &mut size)?;
        Ok(lists.into_iter().map(|list| String::from_utf8(list).unwrap()).collect::<Vec<_>>())
    };
    assert_eq!(page(r#"[6, " nicht", 8]"#, 0), Ok(vec![]));
    assert_eq!(page(r#"[-6, "Ger\u00e4te \"Gast\"", 8]"#, 0), Ok(vec![r#"[13," nicht",8]"#.to_owned()]));
    let two = [r#"[6," nicht",9]"#.to_owned(), r#"["Geräte \"Gast\"",-6,15]"#.to_owned()];
    assert_eq!(page(r#"[14, "\ud83d\ude00"]"#, 0), Ok(two.to_vec()));
    assert_eq!(page(r#"[14, "\ud83d"]"#, 0), Err(ot::Refusal::Json));
    assert_eq!(page("[15]", 0), Err(ot::Refusal::IncompatibleLengths));
    let (mut a, mut b, mut shipped) = (vec![0; 64], vec![0; 64], vec![0; 64]);
    let n = ot::play(&log[..size], label, &mut a, &mut b, &mut shipped).unwrap();
    assert_eq!(std::str::from_utf8(&shipped[..n]).unwrap(), "Geräte \"Gast\" nicht sperren😀");
}
