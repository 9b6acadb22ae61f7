//! A day's file: which bytes are refused, both round trips, and the text.

use problems::bundles::{bytes, file, file_words, ten_bodies, writing, Family};
use problems::random::{seed, Random};
use reference::{bundle_read, bundle_write, day, day_text, respond, Contents};

const KEPT: i32 = -77;

/// Everything that a reader says with this room.
fn read(file: &[u8], rooms: [usize; 2]) -> (Contents, Vec<i32>, Vec<i32>) {
    let [mut lengths, mut words] = rooms.map(|room| vec![KEPT; room]);
    let told = bundle_read(file, &mut lengths, &mut words);
    (told, lengths, words)
}

fn refusal(words: &[i32]) -> u32 {
    read(&bytes(words), [64, 16_384]).0.refused
}

#[test]
fn the_ten_bodies() {
    let bodies = ten_bodies();
    let file = file(1, &bodies);
    assert_eq!(file.len(), 4 * 152);
    let (told, lengths, words) = read(&file, [11, 131]);
    assert_eq!(told, Contents { refused: 0, edition: 1, bodies: 10 });
    assert_eq!(lengths, [23, 5, 0, 1, 22, 23, 29, 9, 13, 5, KEPT]);
    assert_eq!(words, [&bodies.concat()[..], &[KEPT]].concat());
    let text = String::from_utf8(day_text(&file)).unwrap();
    let firsts: Vec<&str> =
        text.lines().filter(|line| line.starts_with(|c: char| c.is_alphabetic())).collect();
    assert_eq!(text.lines().count(), 32);
    assert_eq!(firsts.iter().filter(|line| line.starts_with("refused")).count(), 4);
}

#[test]
fn the_text_is_that_of_each_body() {
    let bodies: Vec<Vec<i32>> =
        ten_bodies().into_iter().filter(|body| body.len() >= 2 || body.is_empty()).collect();
    let each: Vec<u8> = bodies.iter().flat_map(|body| respond(&bytes(body))).collect();
    assert_eq!(day_text(&file(1, &bodies)), each);
    assert_eq!(day_text(&file(1, &[])), b"");
    assert_eq!(day_text(&[1, 0, 0]), b"refused 30\n");
    assert_eq!(day_text(&file(2, &bodies)), each);
    assert_eq!(day_text(&bytes(&[3, 0])), b"refused 31\n");
}

/// 300 words are too many bytes for the program; a body is judged by its words.
#[test]
fn a_body_is_judged_by_its_words() {
    let long = [&[9, 0], &[0; 298][..]].concat();
    assert_eq!(respond(&bytes(&long)), b"refused 3\n");
    assert_eq!(day_text(&file(1, &[long, vec![3]])), b"refused 2\nrefused 1\n");
}

/// Rows of one variable, each as often as the last.
fn rows(count: usize) -> Vec<i32> {
    let limits = vec![0; 3 * (1 + count)];
    [&[1, count as i32], &vec![1; count][..], &limits].concat()
}

/// Case I: an edition 1 body of 17 rows is refused, and edition 2 answers it.
#[test]
fn rows_of_a_body() {
    for (count, editions) in [(16, [0, 0]), (17, [2, 0]), (24, [2, 0]), (25, [2, 2])] {
        for (edition, number) in [1, 2].into_iter().zip(editions) {
            let text = day_text(&file(edition, &[rows(count), vec![]]));
            let text = String::from_utf8(text).unwrap();
            if number == 0 {
                assert!(text.starts_with("can\n") && text.ends_with(" 0\nrefused 1\n"), "{text}");
                assert_eq!(text.lines().count(), 3 + 1 + count + 1);
            } else {
                assert_eq!(text, format!("refused {number}\nrefused 1\n"), "{count}, {edition}");
            }
        }
    }
}

#[test]
fn refusals_of_a_file() {
    for (words, number) in [
        (&[1, 0][..], 0),
        (&[1, 1, 4, 0], 0),
        (&[1, 2, 6, 1, 7, 0, 9], 0),
        (&[], 30),
        (&[1], 30),
        (&[0, 0], 31),
        (&[2, 0], 0),
        (&[2, 1, 4, 0], 0),
        (&[3, 0], 31),
        (&[-1, 0], 31),
        (&[1, -1], 32),
        (&[1, 65], 32),
        (&[2, -1], 32),
        (&[2, 49], 32),
        (&[1, 49], 33),
        (&[2, 48], 33),
        (&[1, 1], 33),
        (&[1, 1, 4], 33),
        (&[1, 64], 33),
        (&[1, 1, 4, -1], 34),
        (&[2, 1, 4, -1], 34),
        (&[1, 1, 5, 0], 34),
        (&[1, 2, 6, 1, 8, 0, 9, 9], 34),
        (&[1, 2, 6, 1, 6, 0, 9], 34),
        (&[1, 2, 6, i32::MAX, -2_147_483_643, 0], 34),
        (&[1, 2, 6, 2, 8, -1, 9], 34),
        (&[1, 1, 4, 1], 35),
        (&[1, 0, 0], 35),
        (&[2, 0, 0], 35),
        (&[1, 1, 4, i32::MAX], 35),
    ] {
        assert_eq!(refusal(words), number, "{words:?}");
    }
}

#[test]
fn counts_of_bytes_are_judged_first() {
    for count in [0, 1, 4, 7, 9, 10, 11, 65_535, 65_537, 65_540, 1_000_000] {
        assert_eq!(read(&vec![0; count], [0, 0]).0.refused, 30, "{count}");
    }
    for count in [8, 12, 65_536] {
        assert_eq!(read(&vec![0; count], [0, 0]).0.refused, 31, "{count}");
    }
}

#[test]
fn bodies_and_words_at_their_most() {
    for (edition, most) in [(1, 64), (2, 48)] {
        assert_eq!(refusal(&file_words(edition, &vec![vec![]; most])), 0);
        assert_eq!(refusal(&file_words(edition, &vec![vec![]; most + 1])), 32);
        assert_eq!(refusal(&file_words(edition, &[vec![7; 16_380]])), 0);
        assert_eq!(refusal(&file_words(edition, &[vec![7; 16_381]])), 30);
    }
}

#[test]
fn rooms_of_the_reader() {
    for edition in [1, 2] {
        let file = file(edition, &[vec![1, 2, 3], vec![4]]);
        let refused = Contents { refused: 36, edition: 0, bodies: 0 };
        assert_eq!(read(&file, [2, 4]).0, Contents { refused: 0, edition, bodies: 2 });
        for rooms in [[1, 4], [2, 3], [0, 0]] {
            let (told, lengths, words) = read(&file, rooms);
            assert_eq!(told, refused);
            assert_eq!((lengths, words), (vec![KEPT; rooms[0]], vec![KEPT; rooms[1]]));
        }
    }
    assert_eq!(read(&bytes(&[3, 0]), [0, 0]).0.refused, 31);
}

#[test]
fn refusals_of_the_writer() {
    for (lengths, words, room, number) in [
        (&[][..], 0, 8, 0),
        (&[], 0, 7, 36),
        (&[5], 5, 36, 0),
        (&[5], 5, 35, 36),
        (&[0; 64], 0, 520, 0),
        (&[-1; 65], 3, 0, 32),
        (&[-1, 1], 0, 99, 34),
        (&[3, -1], 2, 99, 34),
        (&[2, 2], 5, 99, 35),
        (&[2, 2], 3, 99, 35),
        (&[i32::MAX, i32::MAX, 2], 0, 99, 35),
        (&[16_380], 16_380, 65_536, 0),
        (&[16_381], 16_381, 65_540, 30),
    ] {
        for edition in [0, 1, 2, 3, 257, u32::MAX] {
            let number = match edition {
                1 => number,
                2 if lengths.len() > 48 => 32,
                2 => number,
                _ => 31,
            };
            let mut out = vec![0xa5; room];
            let found = bundle_write(edition, lengths, &vec![1; words], &mut out);
            assert_eq!(found, number, "edition {edition}, {lengths:?}");
            assert!(number == 0 || out == vec![0xa5; room], "edition {edition}, {lengths:?}");
        }
    }
    for (count, numbers) in [(48, [0, 0]), (49, [0, 32]), (64, [0, 32]), (65, [32, 32])] {
        let found =
            [1, 2].map(|edition| bundle_write(edition, &vec![0; count], &[], &mut [0; 600]));
        assert_eq!(found, numbers, "{count}");
    }
}

#[test]
fn round_trips() {
    let seed = seed();
    println!("SEED={seed}");
    let mut trips = [0; 2];
    for number in 0..3_000 {
        let mut random = Random::of_problem(seed, number);
        let file = random.pick(&Family::ALL).file(&mut random);
        let (told, lengths, words) = read(&file, [64, 16_384]);
        if told.refused == 0 {
            let lengths = &lengths[..told.bodies];
            let words = &words[..lengths.iter().sum::<i32>() as usize];
            let mut again = vec![0; file.len()];
            let written = bundle_write(told.edition, lengths, words, &mut again);
            assert_eq!(written, 0, "SEED={seed}, {number}");
            assert_eq!(again, file, "SEED={seed}, {number}");
            trips[0] += 1;
        }
        let (edition, lengths, words) = writing(&mut random);
        let mut file = vec![0; 8 + 8 * lengths.len() + 4 * words.len()];
        if bundle_write(edition, &lengths, &words, &mut file) == 0 {
            let found = read(&file, [lengths.len(), words.len()]);
            let told = Contents { refused: 0, edition, bodies: lengths.len() };
            assert_eq!(found, (told, lengths, words), "SEED={seed}, {number}");
            trips[1] += 1;
        }
    }
    assert!(trips.iter().all(|&trips| trips > 1_000), "{trips:?}, SEED={seed}");
}

#[test]
fn a_text_without_room_is_not_begun() {
    let file = file(1, &ten_bodies());
    let text = day_text(&file);
    for room in [0, 1, text.len() - 1, text.len(), text.len() + 3] {
        let mut out = vec![0xa5; room];
        assert_eq!(day(&file, &mut out), text.len());
        let kept = vec![0xa5; room];
        let expected =
            if room < text.len() { kept } else { [&text[..], &kept[text.len()..]].concat() };
        assert_eq!(out, expected);
    }
}
