//! The tool's texts: cards read back, shows and sheets typed, the places of a refusal, and where the points of a sheet went.
use lamp::calls::Points;
use lamp::explanation::{self, Explanation};
use lamp::faults;
use lamp::planning::{self, Planner};
use lamp::refusal::Refusal;
use lamp::sheet_text;
use lamp::show::Show;
use lamp::show_text::{self, Field};
use lamp::words;
use lamp_tests::boundary::{check_card, mark};
use lamp_tests::cards::{card_a, largest, small, Card};
use lamp_tests::catalogue;
use lamp_tests::classes::Classes;
use lamp_tests::plain::{self, OFF};
use lamp_tests::random::Random;
use lamp_tests::searches::serving_sheets;
use lamp_tests::shows;

/// The card that the text of `lamp show` makes.
fn read_back(card: &[u8]) -> Vec<u8> {
    let text = show_text::write(&Show::read(card).unwrap());
    show_text::read(&text).unwrap_or_else(|error| panic!("{error} in {text}")).show.card()
}

#[test]
fn cards_read_back() {
    let mut classes = Classes::new("cards read back (seed 91)", &shows::ALL_CLASSES);
    let mut random = Random::new(91);
    for _ in 0..20_000 {
        let card = shows::of_any_size(&mut random, 90);
        let show = Show::read(&card.bytes()).unwrap();
        let fields = (show.modules, show.top, show.warm_up, show.cool_down, &show.table, &show.loads);
        assert_eq!(fields, (card.modules, card.top, card.up, card.down, &card.table, &card.loads));
        assert_eq!(read_back(&card.bytes()), card.bytes());
        shows::classes(&card).into_iter().for_each(|name| classes.see(name));
    }
    classes.require_all();
    assert_eq!(read_back(&largest(40_000).bytes()), largest(40_000).bytes());
}

/// A refused card is read back as far as its length allows, and its text makes the same refused card.
#[test]
fn refused_cards_read_back() {
    let mut classes = Classes::new("refused cards read back (seed 92)", &["1", "2", "3", "4", "5", "6", "7", "8"]);
    let mut random = Random::new(92);
    for _ in 0..20_000 {
        let card = shows::of_any_size(&mut random, 90);
        let bytes = shows::damaged(&mut random, &card);
        let number = check_card(&bytes).number;
        match Show::read(&bytes) {
            Some(_) => assert_eq!(read_back(&bytes), bytes),
            None => assert!([1, 2, 3, 4, 5].contains(&number), "{number}: {bytes:?}"),
        }
        if number != 0 {
            classes.see(&number.to_string());
        }
    }
    classes.require_all();
}

/// All one-digit typing errors in example A's hex text: 403 of them make another accepted card, and each of these is read back as
/// another show, so that whoever reads the show over sees it.
#[test]
fn typing_errors_are_seen() {
    let text = show_text::write(&Show::read(&card_a()).unwrap());
    let (mut tried, mut accepted) = (0, 0);
    for place in 0..card_a().len() {
        for change in (1..16u8).flat_map(|digit| [digit, digit << 4]) {
            let mut card = card_a();
            card[place] ^= change;
            tried += 1;
            if check_card(&card).number == 0 {
                accepted += 1;
                assert_ne!(show_text::write(&Show::read(&card).unwrap()), text);
            }
        }
    }
    assert_eq!((tried, accepted), (1_050, 403));
}

/// The same show however it is typed: fields in any order, lists over several lines, comments, tabs, other ends of line.
#[test]
fn shows_typed_in_many_ways() {
    let mut random = Random::new(93);
    for _ in 0..5_000 {
        let card = shows::of_any_size(&mut random, 90);
        let list = |random: &mut Random, numbers: Vec<String>| {
            let gaps = [" ", "  ", "\t", "\n", "\r\n", "\r", " # some\n", " # more\r", "\n\n   "];
            numbers.into_iter().fold(String::new(), |text, number| text + random.pick(&gaps) + &number)
        };
        let entries = card.table.iter().map(u32::to_string).collect();
        let loads = card.loads.iter().map(u16::to_string).collect();
        let mut fields = vec![
            format!("modules {}", card.modules),
            format!("top\t{}", card.top),
            format!("  warm-up {} # points", card.up),
            format!("cool-down {}", card.down),
            format!("table{}", list(&mut random, entries)),
            format!("loads{}", list(&mut random, loads)),
        ];
        for at in (1..fields.len()).rev() {
            fields.swap(at, random.below(at as u64 + 1) as usize);
        }
        let text = fields.join(random.pick(&["\n", "\r\n", "\n# a comment with loads 1 2 3\n", " \n\n"]));
        let found = show_text::read(&text).unwrap_or_else(|error| panic!("{error} in {text:?}"));
        assert_eq!(found.show.card(), card.bytes(), "{text:?}");
    }
}

const A: &str = "modules 3\ntop 2\nwarm-up 3\ncool-down 2\ntable 1 2 4\nloads 6 0 2\n";

/// Example A's text with a change is wrong at a place, and the message has these words.
fn wrong(from: &str, to: &str, line: usize, column: usize, words: &str) {
    let text = A.replacen(from, to, 1);
    assert_ne!(text, A);
    let error = show_text::read(&text).expect_err(&text);
    assert_eq!((error.place.line, error.place.column), (line, column), "{error} in {text:?}");
    assert!(error.message.contains(words), "{error}, and not {words}");
}

/// Each wrong text is told with its line and column.
#[test]
fn wrong_shows_are_told() {
    assert_eq!(show_text::read(A).unwrap().show.card(), card_a());
    wrong("modules 3\n", "", 6, 1, "ends without modules");
    wrong("loads 6 0 2\n", "", 6, 1, "ends without loads");
    wrong("loads", "#loads", 7, 1, "ends without loads");
    wrong("top 2", "top 2\ntop 2", 3, 1, "a second top; the first is in line 2");
    wrong("top 2", "Top 2", 2, 1, "'Top' is no field");
    wrong("loads", "lodas", 6, 1, "'lodas' is no field");
    wrong("top 2", "top: 2", 2, 1, "'top:' is no field");
    wrong("modules 3\n", "3\nmodules 3\n", 1, 1, "before the first field");
    wrong("modules 3", "modules 256", 1, 9, "'256' is too large: modules is 1 to 200");
    wrong("top 2", "top 99999999999999999999999", 2, 5, "too large");
    wrong("warm-up 3", "warm-up 4294967296", 3, 9, "a price is at most 500,000,000");
    wrong("loads 6 0 2", "loads 6 0\n  65536", 7, 3, "a load is at most modules times top");
    wrong("table 1 2 4", "table 1 2 4 4294967296", 5, 13, "an entry is at most 1,000,000");
    wrong("table 1 2 4", "table 1 2", 5, 9, "the table has 2 entries, and top 2 asks for 3, F(0) to F(2)");
    wrong("table 1 2 4", "table 1 2 4 7", 5, 13, "the table has 4 entries");
    wrong("table 1 2 4", "table", 5, 1, "the table has 0 entries");
    wrong("warm-up 3", "warm-up", 3, 1, "warm-up has no number");
    wrong("warm-up 3", "warm-up 3 4", 3, 11, "a second number for warm-up");
    wrong("warm-up 3", "warm-up 3\n4", 4, 1, "a second number for warm-up");
    wrong("warm-up 3", "warm-up 3 points", 3, 11, "'points' is no field");
    wrong("warm-up 3\n", "warm-up 3 ", 3, 11, "'cool-down' stands inside a line");
    wrong("warm-up 3", "warm-up 1,000", 3, 9, "'1,000' is not a number");
    wrong("warm-up 3", "warm-up -3", 3, 9, "'-3' is not a number");
    wrong("warm-up 3", "warm-up +3", 3, 9, "'+3' is not a number");
    wrong("warm-up 3", "warm-up 3.5", 3, 9, "'3.5' is not a number");
    wrong("warm-up 3", "warm-up 0x3", 3, 9, "'0x3' is not a number");
    wrong("warm-up 3", "warm-up \u{664}", 3, 9, "is not a number");
    wrong("loads 6", "loads \u{e9}\u{e9} 6", 6, 7, "is no field");
}

/// The catalogue module's table by the plain rule, as numbers.
fn plain_table(top: u64) -> Vec<u32> {
    (0..=top).map(|k| catalogue::entry(k) as u32).collect()
}

/// All orders of six things.
fn orders() -> Vec<Vec<usize>> {
    (0..6).fold(vec![Vec::new()], |shorter, next| {
        let with_next = |order: &Vec<usize>| (0..=order.len()).map(|at| [&order[..at], &[next], &order[at..]].concat()).collect();
        shorter.iter().flat_map(|order| -> Vec<Vec<usize>> { with_next(order) }).collect()
    })
}

/// The word `catalogue` makes the card that the numbers make, whatever the order of the fields.
#[test]
fn catalogue_in_every_order() {
    assert_eq!(orders().len(), 720);
    for top in [1, 2, 9, 10, 199, 200] {
        let card = Card { modules: 3, top: top as u8, up: 3, down: 2, table: plain_table(top), loads: vec![3, 0, 2] };
        let fields = ["modules 3", &format!("top {top}"), "warm-up 3", "cool-down 2", "table catalogue", "loads 3 0 2"];
        for order in orders() {
            let text: String = order.iter().map(|at| format!("{}\n", fields[*at])).collect();
            let found = show_text::read(&text).unwrap_or_else(|error| panic!("{error} in {text}"));
            assert_eq!(found.show.card(), card.bytes(), "{text}");
            assert_eq!(check_card(&found.show.card()).number, 0);
        }
    }
}

/// The word may stand where the first number of a list may, and the table that is printed is that of `lamp show`, for every top.
#[test]
fn catalogue_typed_in_many_ways() {
    for top in 1..=200 {
        let table = lamp::catalogue::table(top).unwrap();
        assert_eq!(table, plain_table(top));
        let card = Card { modules: 3, top: top as u8, up: 3, down: 2, table, loads: vec![3, 0, 2] };
        let show = show_text::write(&Show::read(&card.bytes()).unwrap());
        let printed = show_text::write_table(&card.table);
        assert!(show.contains(&format!("\n{printed}loads ")), "{show}");
        let typed = ["table catalogue\n", "table\tcatalogue # all\n", "table\ncatalogue\n", " table # none\r\n\n  catalogue\r"];
        for table in typed.into_iter().chain([printed.as_str()]) {
            let text = format!("modules 3\n{table}loads 3\n0 2\ntop {top}\nwarm-up 3\ncool-down 2");
            let found = show_text::read(&text).unwrap_or_else(|error| panic!("{error} in {text:?}"));
            assert_eq!(found.show.card(), card.bytes(), "{text:?}");
        }
    }
}

/// Wrong uses of the word in a table are told with their places.
#[test]
fn wrong_catalogues_are_told() {
    let table = |to: &str, line: usize, column: usize, words: &str| wrong("table 1 2 4", to, line, column, words);
    table("table catalogue 5", 5, 17, "a number after 'catalogue', which stands for the whole table");
    table("table catalogue 400 403 407", 5, 17, "a number after 'catalogue'");
    table("table catalogue\n5", 6, 1, "a number after 'catalogue'");
    table("table catalogue # so\n\n   5 6", 7, 4, "a number after 'catalogue'");
    table("table\ncatalogue 5", 6, 11, "a number after 'catalogue'");
    table("table 5 catalogue", 5, 9, "'catalogue' after a number; it stands for the whole table");
    table("table 1 2 4\ncatalogue", 6, 1, "'catalogue' after a number");
    table("table catalogue catalogue", 5, 17, "a second 'catalogue'; one stands for the whole table");
    table("table catalogue\ntable 1 2 4", 6, 1, "a second table; the first is in line 5");
    table("table 1 2 4\ntable catalogue", 6, 1, "a second table; the first is in line 5");
}

/// What stands after the word in its field is told as that, whatever else is wrong with it. A line that begins with a word of letters is
/// none of the field's, unless the word looks like `catalogue`.
#[test]
fn words_after_catalogue_are_told() {
    let table = |to: &str, line: usize, column: usize, words: &str| wrong("table 1 2 4", to, line, column, words);
    for number in ["5", "0", "08", "000", "4294967295", "4294967296", "99999999999999999999999"] {
        let words = "a number after 'catalogue', which stands for the whole table";
        table(&format!("table catalogue {number}"), 5, 17, words);
        table(&format!("table\ncatalogue # so\n\n  {number} module"), 8, 3, words);
    }
    for word in ["module", "1,000", "-5", "Catalogue", "catalogues", "\"catalogue\"", "Loads", "\u{e9}\u{e9}"] {
        let words = "a word after 'catalogue', which stands for the whole table";
        table(&format!("table catalogue {word}"), 5, 17, words);
        table(&format!("table\ncatalogue {word} 5"), 6, 11, words);
    }
    for word in ["1,000", "-5", "Catalogue", "\"catalogue\""] {
        table(&format!("table catalogue\n {word} 5"), 6, 2, "a word after 'catalogue', which stands for the whole table");
    }
    table("table catalogue loads 6", 5, 17, "'loads' stands inside a line; each field begins a line of its own");
    table("table catalogue\nlodas 6", 6, 1, "'lodas' is no field");
    table("table catalogue\nmodule", 6, 1, "'module' is no field");
    table("table catalogue\ntop 5", 6, 1, "a second top; the first is in line 2");
}

/// A word in the place of a table's numbers is told how a table is typed.
#[test]
fn misspelt_catalogues_are_told() {
    let table = |to: &str, line: usize, column: usize, words: &str| wrong("table 1 2 4", to, line, column, words);
    for word in ["Catalogue", "CATALOGUE", "CaTaLoG", "catalog", "catalogue,", "catalogues", "the-catalogue", "(catalogue)"] {
        let hint = "the catalogue module's table is typed as catalogue, in small letters, without quotes";
        let words = format!("'{word}' is not a number; {hint}");
        table(&format!("table {word}"), 5, 7, &words);
        table(&format!("table 1 {word}"), 5, 9, &words);
        table(&format!("table\n  {word} 5"), 6, 3, &words);
    }
    for word in ["'catalogue'", "\"catalogue\"", "'Catalogue", "\u{201c}catalogue\u{201d}"] {
        table(&format!("table {word}"), 5, 7, "is not a number; the catalogue module's table is typed as catalogue");
    }
    for word in ["catalouge", "catlogue", "katalog", "standard", "module", "lodas", "x", "\u{e9}\u{e9}"] {
        let words = format!("'{word}' is not a number; a table has numbers, or the word catalogue alone");
        table(&format!("table {word}"), 5, 7, &words);
        table(&format!("table 1 2\n4 {word} 6"), 6, 3, &words);
        table(&format!("table 1 2 4\n{word} 6"), 6, 1, &format!("'{word}' is no field; the fields are"));
    }
    table("table the catalogue", 5, 7, "'the' is not a number; a table has numbers, or the word catalogue alone");
    table("table 1,000", 5, 7, "'1,000' is not a number: digits alone");
}

/// A line that begins with the word where no table is open is told the whole line.
#[test]
fn catalogue_without_table_is_told() {
    let words = |word: &str| {
        let fields = "the fields are modules, top, warm-up, cool-down, table and loads";
        format!("'{word}' is no field; {fields}; the line is 'table catalogue'")
    };
    for word in ["catalogue", "Catalogue", "catalogues"] {
        wrong("table 1 2 4", word, 5, 1, &words(word));
        wrong("top 2", &format!("top 2\n  {word}"), 3, 3, &words(word));
        wrong("modules 3", &format!("{word}\nmodules 3"), 1, 1, &words(word));
        wrong("loads 6 0 2", &format!("loads 6 0\n{word}"), 7, 1, &words(word));
        wrong("table 1 2 4\nloads 6 0 2", &format!("loads 6 0 2\n{word} 8"), 6, 1, &words(word));
    }
    wrong("table 1 2 4", "\"catalogue\"", 5, 1, "; the line is 'table catalogue'");
    let error = show_text::read(&A.replace("loads", "lodas")).unwrap_err();
    assert!(!error.message.contains("catalogue"), "{error}");
}

/// So are those in other fields, and what is wrong beside the word.
#[test]
fn wrong_fields_beside_catalogue_are_told() {
    wrong("loads 6 0 2", "loads catalogue", 6, 7, "'catalogue' stands for a table, and this is the field loads");
    wrong("loads 6 0 2", "loads 6 0 catalogue", 6, 11, "this is the field loads");
    wrong("loads 6 0 2", "loads Catalogue", 6, 7, "'Catalogue' is no field");
    wrong("loads 6 0 2", "loads standard", 6, 7, "'standard' is no field");
    wrong("top 2", "top catalogue", 2, 5, "this is the field top");
    wrong("top 2", "top 2 catalogue", 2, 7, "this is the field top");
    wrong("2\nwarm-up 3\ncool-down 2\ntable 1 2 4", "256\nwarm-up 3\ncool-down 2\ntable catalogue", 2, 5, "'256' is too large");
    wrong("top 2\nwarm-up 3\ncool-down 2\ntable 1 2 4", "table catalogue", 4, 1, "the text ends without top, warm-up, cool-down");
}

/// A top step outside 1 to 200 is refused for itself, as it is with numbers typed for the table.
#[test]
fn catalogue_beyond_its_tops() {
    let with = |modules: u8, top: u64, table: &str| {
        let text = A.replace("modules 3", &format!("modules {modules}")).replace("top 2", &format!("top {top}"));
        show_text::read(&text.replace("1 2 4", table)).unwrap()
    };
    for (modules, top) in [(3, 0), (3, 201), (3, 255), (0, 201), (201, 0)] {
        let [word, numbers] = ["catalogue".to_string(), "7 ".repeat(top as usize + 1)].map(|table| with(modules, top, &table));
        assert_eq!((check_card(&word.show.card()).number, check_card(&numbers.show.card()).number), (3, 3));
        assert_eq!(told(&word.show.card()), told(&numbers.show.card()));
        assert_eq!(word.place(Field::Top, 0), numbers.place(Field::Top, 0));
        assert_eq!(Show::read(&word.show.card()), None);
    }
    let found = with(3, 2, "catalogue");
    assert_eq!(found.place(Field::Table, 2).to_string(), "line 5, column 7");
    assert_eq!(found.place(Field::Loads, 2).to_string(), "line 6, column 11");
}

/// What would be read otherwise than it looks is told too: blanks inside numbers, and characters that cannot be seen.
#[test]
fn unseen_characters_are_told() {
    wrong("loads 6 0", "loads 1 000", 6, 9, "'000' begins with a needless 0");
    wrong("loads 6", "loads 06", 6, 7, "'06' begins with a needless 0");
    wrong("loads 6 0 2", "loads 6 # act\u{b}0 2", 6, 14, "\\u{b} is no plain blank");
    wrong("loads 6", "loads 6\u{1b}", 6, 8, "\\u{1b} is no plain blank");
    wrong("loads 6 0", "loads 6\u{a0}0", 6, 8, "\\u{a0} is no plain blank");
    wrong("loads 6 0", "loads 6\u{202f}0", 6, 8, "\\u{202f} is no plain blank");
    wrong("loads 6 0", "loads 6 # \u{2028}0", 6, 11, "\\u{2028} is no plain blank");
    wrong("loads 6 0", "loads 6 \u{feff}0", 6, 9, "\\u{feff} is no plain blank");
    wrong("loads 6 0 2\n", "loads 6 0 2 # one\r0 2 # two\rx\n", 8, 1, "'x' is no field");
    wrong("loads 6 0 2\n", "\r", 7, 1, "ends without loads");
    let error = show_text::read(&A.replace('\n', "\r\n").replace("loads 6", "loads x")).unwrap_err();
    assert_eq!((error.place.line, error.place.column), (6, 7), "{error}");
    for letter in "\u{ad}\u{200b}\u{200f}\u{202e}\u{2066}\u{2060}\u{2800}\u{3164}\u{e0001}\u{85}".chars() {
        wrong("loads 6 0", &format!("loads 6 # {letter} 0"), 6, 11, "is no plain blank and not visible");
    }
}

/// Tells the places of a refused card in one text.
fn told(card: &[u8]) -> String {
    let refusal = Refusal::of_number(check_card(card).number).unwrap();
    faults::of_card(refusal, card).into_iter().map(|fault| fault.text).collect::<Vec<_>>().join("; ")
}

fn every_refused_card_has_a_place() {
    let mut random = Random::new(94);
    for _ in 0..50_000 {
        let card = shows::of_any_size(&mut random, 90);
        let mut bytes = shows::damaged(&mut random, &card);
        if random.below(2) == 0 && !bytes.is_empty() {
            let place = random.below(bytes.len() as u64) as usize;
            bytes[place] = random.below(256) as u8;
        }
        if check_card(&bytes).number != 0 {
            assert!(!told(&bytes).is_empty(), "{bytes:?}");
        }
    }
}

/// The places of a refusal are those that document 01 names, and there is at least one for every refused card.
#[test]
fn places_of_refusals() {
    let a = || small(3, &[1, 2, 4], &[6, 0, 2]);
    let with = |place: usize, byte: u8| {
        let mut bytes = a().bytes();
        bytes[place] = byte;
        bytes
    };
    assert_eq!(told(&a().bytes()[..16]), "16 bytes");
    assert_eq!(told(&[]), "0 bytes");
    assert_eq!(told(&with(2, b'X')), "35 bytes, beginning with 44 4C 58 and not with 44 4C 53 (DLS)");
    assert_eq!(told(&with(4, 1)), "version 257");
    assert_eq!(told(&Card { modules: 0, top: 201, table: vec![0; 202], ..a() }.bytes()), "modules 0; top 201");
    assert_eq!(told(&Card { loads: vec![0; 1_025], ..a() }.bytes()), "1,025 slots");
    assert_eq!(told(&a().bytes()[..34]), "34 bytes where top 2 and 3 slots make 35");
    let dear = Card { up: 500_000_001, down: 500_000_000, table: vec![1, 1_000_001, 2_000_001], ..a() };
    let above = "warm-up 500,000,001, above 500,000,000; F(1) 1,000,001, above 1,000,000; F(2) 2,000,001, above 1,000,000";
    assert_eq!(told(&dear.bytes()), above);
    let bent = small(3, &[0, 2, 3, 4, 5, 4], &[1]);
    assert_eq!(told(&bent.bytes()), "F(0), F(1), F(2): 0 + 3 is below 2 times 2; F(3), F(4), F(5): 4 + 4 is below 2 times 5");
    let bright = small(3, &[1, 2, 4], &[6, 7, 0, 9]);
    assert_eq!(told(&bright.bytes()), "slot 2: load 7, above 6, 3 times 2; slot 4: load 9, above 6, 3 times 2");
    let falling = small(2, &[5, 1, 9], &[2]).bytes();
    assert_eq!(check_card(&falling).number, 0);
    assert_eq!(faults::of_card(Refusal::NotMonotone, &falling), []);
    every_refused_card_has_a_place();
}

/// A sheet's lines as they are typed, sometimes with the labels of a listing.
fn typed(random: &mut Random, rows: &[Vec<u8>]) -> String {
    let labelled = random.below(2) == 0;
    let mut out = if labelled { "cost 9\nplan 1 2\n".to_string() } else { "# a sheet\n".to_string() };
    for (slot, row) in rows.iter().enumerate() {
        let steps: Vec<String> = row.iter().map(|step| if *step == OFF { "-".to_string() } else { step.to_string() }).collect();
        let label = if labelled { format!("slot {}: ", slot + 1) } else { String::new() };
        out += &format!("{label}{}{}", steps.join(random.pick(&[" ", "   ", "\t"])), random.pick(&["\n", "\r\n", " # so\n", "\n\n"]));
    }
    out
}

/// Makes the rows of a sheet, one for each slot, with bytes from 0 to `top` and 255.
fn random_rows(random: &mut Random, modules: u64, top: u64, slots: u64) -> Vec<Vec<u8>> {
    (0..slots)
        .map(|_| (0..modules).map(|_| if random.below(3) == 0 { OFF } else { random.below(top + 1) as u8 }).collect())
        .collect()
}

fn light(row: &[u8]) -> u16 {
    row.iter().filter(|step| **step != OFF).map(|step| u16::from(*step)).sum()
}

/// Draws a load for a row: its light, or at most that.
fn load_for(random: &mut Random, row: &[u8]) -> u16 {
    if random.below(2) == 0 {
        light(row)
    } else {
        light(row) - random.below(1 + u64::from(light(row))) as u16
    }
}

/// Now and then gives rows other lengths, leaves one out, adds one, joins two, or puts in a step above the top.
fn spoil(random: &mut Random, rows: &mut Vec<Vec<u8>>, top: u64) {
    let slots = rows.len();
    match random.below(10) {
        0 if slots > 1 => {
            let step = rows[0].pop().unwrap();
            rows[1].insert(0, step);
        }
        1 => rows.push(vec![0; 1 + random.below(5) as usize]),
        2 if slots > 0 => drop(rows.pop()),
        3 if slots > 0 => rows[0][0] = 1 + top as u8,
        4 if slots > 1 => {
            let next = rows.remove(1);
            rows[0].extend(next);
        }
        _ => {}
    }
    rows.retain(|row| !row.is_empty());
}

/// Says whether each row has a step for each module.
fn even(card: &Card, rows: &[Vec<u8>]) -> bool {
    rows.iter().all(|row| row.len() == usize::from(card.modules))
}

/// Marks the text of a sheet with these rows, compares the number with that of the plain rules, and returns it.
fn mark_typed(card: &Card, rows: &[Vec<u8>], text: &str) -> u64 {
    let (modules, slots) = (usize::from(card.modules), card.loads.len());
    let sheet = sheet_text::read(text).unwrap_or_else(|error| panic!("{error} in {text:?}"));
    let found = mark(&card.bytes(), &sheet.bytes(modules, slots));
    let wanted = if even(card, rows) { plain::mark(&card.bytes(), &rows.concat()).number } else { 11 };
    assert_eq!(found.number, wanted, "{card:?} {text:?}");
    assert_eq!(sheet.length_fault(modules, slots).is_some(), wanted == 11);
    found.number
}

/// Counts the classes of a typed sheet and its number.
fn count_typed(classes: &mut Classes, card: &Card, rows: &[Vec<u8>], number: u64) {
    classes.see(&number.to_string());
    if !even(card, rows) && rows.concat().len() == usize::from(card.modules) * card.loads.len() {
        classes.see("11 though the steps are as many");
    }
    let brighter = rows.iter().zip(&card.loads).any(|(row, load)| light(row) > *load);
    match number {
        0 if brighter => classes.see("0 with more light"),
        13 if brighter => classes.see("13 with more light in another slot"),
        _ => {}
    }
}

/// Marking a typed sheet is marking its bytes where each line has a step for each module. Else it is refused by 11, however the
/// steps would fall into slots if they were taken one after the other.
#[test]
fn sheets_typed() {
    let names = ["0", "11", "12", "13", "11 though the steps are as many", "0 with more light", "13 with more light in another slot"];
    let mut classes = Classes::new("sheets typed (seed 95)", &names);
    let mut random = Random::new(95);
    for _ in 0..30_000 {
        let (modules, top, slots) = (1 + random.below(4), 1 + random.below(3), random.below(4));
        let mut rows = random_rows(&mut random, modules, top, slots);
        let mut card = shows::card(&mut random, modules, top, slots, 50);
        if random.below(3) != 0 {
            card.loads = rows.iter().map(|row| load_for(&mut random, row)).collect();
        }
        spoil(&mut random, &mut rows, top);
        let number = mark_typed(&card, &rows, &typed(&mut random, &rows));
        count_typed(&mut classes, &card, &rows, number);
    }
    classes.require_all();
}

/// A labelled slot without steps is a slot of the wrong length, inside the show and after its end.
#[test]
fn labels_without_steps() {
    let rows = ["slot 1: 2 2 2\n", "slot 2: - 0 -\n", "slot 3: 2 - -\n"];
    let number = |text: &str| mark(&card_a(), &sheet_text::read(text).unwrap().bytes(3, 3)).number;
    assert_eq!(number(&rows.concat()), 0);
    assert_eq!(number(&[rows[0], "slot 2:\n", rows[2]].concat()), 11);
    assert_eq!(number(&(rows.concat() + "slot 4:\n")), 11);
    assert_eq!(number(&(rows.concat() + "slot 4: - - -\n")), 11);
}

#[test]
fn wrong_sheets_are_told() {
    let wrong = |text: &str, line: usize, column: usize, words: &str| {
        let error = sheet_text::read(text).expect_err(text);
        assert_eq!((error.place.line, error.place.column), (line, column), "{error} in {text:?}");
        assert!(error.message.contains(words), "{error}, and not {words}");
    };
    wrong("2 2 2\n- x -\n", 2, 3, "'x' is not a step: digits, or - for off");
    wrong("2 2 2\n- \u{2013} -\n", 2, 3, "is not a step");
    wrong("2 2 255\n", 1, 5, "'255' is too large for a step; a module that is off is typed -");
    wrong("2 2 -1\n", 1, 5, "'-1' is not a step");
    wrong("slot 1: 2 2\nslot 3: 2 2\n", 2, 6, "'3:' where 'slot 2:' comes next");
    wrong("slot 2: 2 2\n", 1, 6, "'2:' where 'slot 1:' comes next");
    wrong("slot 1 2 2\n", 1, 6, "'1' where 'slot 1:' comes next");
    wrong("2 2 02\n", 1, 5, "'02' begins with a needless 0");
    wrong("2 2\u{a0}2\n", 1, 4, "\\u{a0} is no plain blank");
    wrong("2 2 2 # first\r2 x 2\n", 2, 3, "'x' is not a step");
    wrong("slot\n", 1, 1, "a slot without its number");
    wrong("2 2\ncost 3\n", 2, 1, "'cost' after the first slot");
    wrong("modules 3\n", 1, 1, "'modules' is not a step");
}

/// Numbers of slots as a sentence has them.
#[test]
fn runs_of_numbers() {
    assert_eq!(words::runs(&[], 2), "");
    assert_eq!(words::runs(&[7], 2), "7");
    assert_eq!(words::runs(&[7, 8], 2), "7 to 8");
    assert_eq!(words::runs(&[1, 3, 4, 5], 2), "1, 3 to 5");
    assert_eq!(words::runs(&[1, 3, 4, 6, 8, 9], 2), "1, 3 to 4, and 3 more");
    assert_eq!(words::runs(&[1_023, 1_024], 2), "1,023 to 1,024");
    assert_eq!((words::range("slot", 3, 3), words::range("slot", 1, 1_024)), ("slot 3".to_string(), "slots 1 to 1,024".to_string()));
}

/// The slots with too little light and the entries above the top step, beside the plain rule. More light is no fault.
#[test]
fn places_in_sheets() {
    let show = Show::read(&card_a()).unwrap();
    let texts = |faults: Vec<faults::SheetFault>| faults.into_iter().map(|fault| fault.text).collect::<Vec<_>>();
    assert_eq!(texts(faults::lights(&show, &[2, 2, 1, 0, 1, OFF, OFF, 0, OFF])), [
        "slot 1: light 5 where the load is 6, 1 too little",
        "slot 3: light 0 where the load is 2, 2 too little"
    ]);
    assert_eq!(faults::lights(&show, &[2, 2, 2, 0, 1, OFF, 2, OFF, OFF]), []);
    assert_eq!(show.lights(&[2, 2, 2, 0, 1, OFF, 2, 2, 2]).collect::<Vec<_>>(), [6, 1, 6]);
    assert_eq!(texts(faults::entries(&show, &[2, 2, 254, OFF, 3, OFF, 2, OFF, OFF])), [
        "slot 1, module 3: step 254, above 2",
        "slot 2, module 2: step 3, above 2"
    ]);
    let mut random = Random::new(96);
    let mut seen = Classes::new("places in sheets (seed 96)", &["0", "0 with more light", "12", "13"]);
    for _ in 0..30_000 {
        let sheet: Vec<u8> = (0..9).map(|_| random.pick(&[0, 0, 1, 2, 2, OFF, OFF, OFF, OFF, 3])).collect();
        let number = mark(&card_a(), &sheet).number;
        assert_eq!(number == 12, !faults::entries(&show, &sheet).is_empty());
        assert_eq!(number == 13, number != 12 && !faults::lights(&show, &sheet).is_empty());
        let brighter = show.lights(&sheet).zip(&show.loads).any(|(light, load)| light > u64::from(*load));
        seen.see(&number.to_string());
        if number == 0 && brighter {
            seen.see("0 with more light");
        }
    }
    seen.require_all();
}

/// The bytes of each slot, each by what `key` makes of it, in ascending order.
fn sorted_rows(sheet: &[u8], modules: usize, key: fn(u8) -> u8) -> Vec<Vec<u8>> {
    let mut rows: Vec<Vec<u8>> = sheet.chunks(modules).map(|row| row.iter().map(|step| key(*step)).collect()).collect();
    rows.iter_mut().for_each(|row| row.sort_unstable());
    rows
}

/// What the sentences on a sheet say, by a search through all sheets that serve. Other steps are those of a sheet with the same modules
/// burning in each slot. Another choice of modules is a sheet with the same steps in each slot, in another order. The best sheet with as
/// many burning modules is the best of all with the same counts.
fn found_by_search(sheets: &[(Vec<u8>, u64)], modules: usize, sheet: &[u8], cost: u64) -> Explanation {
    let best = |alike: &dyn Fn(&[u8]) -> bool| sheets.iter().filter(|(other, _)| alike(other)).map(|(_, cost)| *cost).min().unwrap();
    let burning = |step: u8| u8::from(step != OFF);
    let modules_of = |sheet: &[u8]| sheet.iter().map(|step| burning(*step)).collect::<Vec<_>>();
    let steps_of = |sheet: &[u8]| sorted_rows(sheet, modules, |step| step);
    let counts_of = |sheet: &[u8]| sorted_rows(sheet, modules, burning);
    let least = best(&|_| true);
    let spread = cost - best(&|other| modules_of(other) == modules_of(sheet));
    let swaps = cost - best(&|other| steps_of(other) == steps_of(sheet));
    let counts = best(&|other| counts_of(other) == counts_of(sheet)) - least;
    Explanation { cost, least, points: Points { number: 0, spread, swaps, counts } }
}

/// The sentences are true of the sheets that were tried, whichever of the three parts are above 0. A sheet that marking refuses is refused
/// by the same number.
#[test]
fn explanations_of_sheets() {
    let names = ["none", "counts", "swaps", "swaps, counts", "spread", "spread, counts", "spread, swaps", "spread, swaps, counts"];
    let mut classes = Classes::new("explanations of sheets (seed 99)", &names).with_numbers([0, 11, 12, 13]);
    let mut random = Random::new(99);
    for _ in 0..3_000 {
        let card = shows::of_few_sheets(&mut random, 5_000);
        let (bytes, modules) = (card.bytes(), usize::from(card.modules));
        let planned = planning::plan(Planner::Exact, &bytes).unwrap();
        let sheets = serving_sheets(&card, &plain::read_card(&bytes).unwrap());
        for _ in 0..10 {
            let (sheet, cost) = &sheets[random.below(sheets.len() as u64) as usize];
            let found = explanation::of(&planned, &bytes, sheet).unwrap();
            assert_eq!(found, found_by_search(&sheets, modules, sheet, *cost), "{card:?} {sheet:?}");
            let Points { spread, swaps, counts, .. } = found.points;
            classes.see(names[usize::from(spread > 0) * 4 + usize::from(swaps > 0) * 2 + usize::from(counts > 0)]);
        }
        let length = modules * card.loads.len() + random.below(2) as usize;
        let drawn: Vec<u8> = (0..length).map(|_| random.pick(&[0, 1, 4, OFF])).collect();
        let number = explanation::of(&planned, &bytes, &drawn).map_or_else(Refusal::number, |_| 0);
        assert_eq!(number, mark(&bytes, &drawn).number, "{card:?} {drawn:?}");
        classes.see_number(number);
    }
    classes.require_all();
}
