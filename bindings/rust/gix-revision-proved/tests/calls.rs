//! Each call over a criss-cross, and a history that another thread uses.

use gix_revision_proved::{graph_fault, library_version, Commit, Error, History, How, Id, Names, Span};

const fn id(byte: u8) -> Id {
    Id([byte; 20])
}

fn criss_cross() -> Result<History, Error> {
    let mut history = History::new()?;
    history.insert(id(0x11), &[], 1, None)?;
    history.insert(id(0x22), &[id(0x11)], 2, None)?;
    history.insert(id(0x33), &[id(0x11)], 2, None)?;
    history.insert(id(0x44), &[id(0x22), id(0x33)], 4, None)?;
    history.insert(id(0x55), &[id(0x22), id(0x33)], 5, None)?;
    Ok(history)
}

/// The commit-graph file of some commits of the criss-cross, without the hash at its end. It is above
/// files with these hashes.
fn part(first: u8, count: u8, hashes: &[[u8; 20]]) -> Vec<u8> {
    const NONE: u32 = 0x7000_0000;
    const ROWS: [[u32; 4]; 5] = [
        [NONE, NONE, 1, 1],
        [0, NONE, 2, 2],
        [0, NONE, 2, 2],
        [1, 2, 3, 4],
        [1, 2, 3, 5],
    ];
    let of_each = u64::from(count);
    let mut chunks = vec![(b"OIDF", 1024), (b"OIDL", 20 * of_each), (b"CDAT", 36 * of_each)];
    if !hashes.is_empty() {
        chunks.push((b"BASE", 20 * hashes.len() as u64));
    }
    chunks.push((&[0; 4], 0));
    let mut file = b"CGPH\x01\x01".to_vec();
    file.extend([chunks.len() as u8 - 1, hashes.len() as u8]);
    let mut place = 8 + 12 * chunks.len() as u64;
    for (name, length) in chunks {
        file.extend(name);
        file.extend(place.to_be_bytes());
        place += length;
    }
    let below = |byte: u8| u32::from((byte / 0x11).saturating_sub(first).min(count));
    file.extend((0..=255).flat_map(|byte| below(byte).to_be_bytes()));
    file.extend((first..first + count).flat_map(|n| id(0x11 * (n + 1)).0));
    for [first, second, level, time] in &ROWS[first.into()..(first + count).into()] {
        file.extend([0; 20]);
        file.extend(
            [*first, *second, level << 2, *time]
                .map(u32::to_be_bytes)
                .concat(),
        );
    }
    file.extend(hashes.concat());
    file
}

/// The commit-graph file of the criss-cross. The hash at its end is not right.
fn file() -> Vec<u8> {
    let mut file = part(0, 5, &[]);
    file.extend([0; 20]);
    file
}

/// The criss-cross as a chain of three commit-graph files. The hash at the end of the lowest one is
/// not right.
fn chain() -> [Vec<u8>; 3] {
    const HASHES: [[u8; 20]; 3] = [
        [0; 20],
        [
            0xF4, 0xFB, 0xE8, 0xB4, 0x4C, 0xAC, 0x78, 0x5A, 0x19, 0x4A, 0x62, 0x0F, 0xE8, 0x52, 0x44,
            0x35, 0x28, 0xDE, 0x19, 0xFB,
        ],
        [
            0x5D, 0x38, 0x07, 0xA9, 0x84, 0x4C, 0x5C, 0xA2, 0x7A, 0x38, 0xE5, 0x83, 0x0F, 0x02, 0x83,
            0x41, 0xDF, 0xF2, 0xC8, 0xCD,
        ],
    ];
    let mut files = [part(0, 1, &[]), part(1, 2, &HASHES[..1]), part(3, 2, &HASHES[..2])];
    for (file, hash) in files.iter_mut().zip(HASHES) {
        file.extend(hash);
    }
    files
}

#[test]
fn a_file_is_opened() -> Result<(), Error> {
    let mut history = History::open(&file())?;
    history.insert(id(0x66), &[id(0x55)], 6, None)?;
    assert_eq!(
        history.merge_bases(id(0x44), &[id(0x66)])?,
        [id(0x22), id(0x33)]
    );
    assert_eq!(history.missing(None, 10)?, []);
    assert_eq!(
        history.insert(id(0x55), &[], 5, None),
        Err(Error::AlreadyThere)
    );
    assert_eq!(history.resolve(b"4444", 0, 0)?, Span::Include(id(0x44)));
    Ok(())
}

#[test]
fn bytes_that_are_no_file_are_refused() {
    let mut file = file();
    assert_eq!(History::open(&file[1..]).err(), Some(Error::NoGraph));
    assert_eq!(History::open(&[]).err(), Some(Error::NoGraph));
    assert_eq!([graph_fault(&file), graph_fault(&file[1..]), graph_fault(&[])], [0, 2, 1]);
    file[1180 + 31] = 0;
    assert_eq!(History::open(&file).err(), Some(Error::NoLevels));
}

#[test]
fn a_chain_is_opened() -> Result<(), Error> {
    let [low, middle, top] = chain();
    let mut history = History::open_chain(&[&low, &middle, &top])?;
    history.insert(id(0x66), &[id(0x55)], 6, None)?;
    assert_eq!(
        history.merge_bases(id(0x44), &[id(0x66)])?,
        [id(0x22), id(0x33)]
    );
    assert_eq!(history.missing(None, 10)?, []);
    assert_eq!(
        history.insert(id(0x11), &[], 5, None),
        Err(Error::AlreadyThere)
    );
    let wrong: [&[&[u8]]; 5] = [&[], &[&[]], &[&middle, &top], &[&low, &top], &[&low, &low]];
    for files in wrong {
        assert_eq!(History::open_chain(files).err(), Some(Error::NoGraph));
    }
    let mut low = low;
    low[56 + 1024 + 20 + 31] = 2 << 2;
    assert_eq!(History::open_chain(&[&low, &middle]).err(), Some(Error::NoLevels));
    Ok(())
}

#[test]
fn bases_are_found() -> Result<(), Error> {
    let mut history = criss_cross()?;
    assert_eq!(
        history.merge_bases(id(0x44), &[id(0x55)])?,
        [id(0x22), id(0x33)]
    );
    assert_eq!(history.merge_bases(id(0x44), &[id(0x99)])?, []);
    assert_eq!(history.octopus(id(0x44), &[id(0x55)])?, Some(id(0x22)));
    assert_eq!(history.octopus(id(0x44), &[id(0x99)])?, None);
    assert_eq!(history.independent(&[id(0x22), id(0x44)])?, [id(0x44)]);
    assert!(!history.is_ancestor(id(0x55), id(0x11))?);
    assert_eq!(
        history.insert(id(0x55), &[], 5, Some(1)),
        Err(Error::AlreadyThere)
    );
    Ok(())
}

#[test]
fn commits_are_counted() -> Result<(), Error> {
    let mut history = criss_cross()?;
    assert_eq!(history.ahead_behind(id(0x44), id(0x55))?, (1, 1));
    assert_eq!(history.ahead_behind(id(0x55), id(0x22))?, (2, 0));
    let both = Span::Merge {
        theirs: id(0x44),
        ours: id(0x55),
    };
    assert_eq!(history.count(both)?, 2);
    Ok(())
}

#[test]
fn commits_are_put_in_order() -> Result<(), Error> {
    let mut history = criss_cross()?;
    let given = [id(0x33), id(0x99), id(0x55), id(0x22), id(0x33)];
    assert_eq!(
        history.newest_first(&given)?,
        [id(0x55), id(0x22), id(0x33)]
    );
    Ok(())
}

#[test]
fn missing_parents_are_told() -> Result<(), Error> {
    let mut history = criss_cross()?;
    assert_eq!(history.missing(None, 10)?, []);
    history.insert(id(0x66), &[id(0x99), id(0x77), id(0x55)], 6, None)?;
    assert_eq!(history.missing(None, 1)?, [id(0x77)]);
    assert_eq!(history.missing(Some(id(0x77)), 1)?, [id(0x99)]);
    history.insert(id(0x77), &[id(0x99)], 7, None)?;
    assert_eq!(history.missing(None, 10)?, [id(0x99)]);
    Ok(())
}

#[test]
fn commits_are_described() -> Result<(), Error> {
    let mut history = criss_cross()?;
    let found = history.describe(id(0x44), &[(id(0x11), b"v1")], How::default())?;
    assert_eq!(found, Some((b"v1-3-g4444444".to_vec(), 3)));
    assert_eq!(history.describe(id(0x44), &[], How::default())?, None);
    assert_eq!(
        history.describe(id(0x99), &[(id(0x11), b"v1")], How::default()),
        Err(Error::NoCommit)
    );
    let how = How {
        hex_len: 0,
        fallback_to_id: true,
        ..How::default()
    };
    let found = history.describe(id(0x44), &[(id(0x11), b"v1")], how)?;
    assert_eq!(found, Some((b"v1".to_vec(), 3)));
    let found = history.describe(id(0x44), &[], how)?;
    assert_eq!(found, Some((b"4".repeat(40), 0)));
    // Both names are equally near; git takes the one that it visits first.
    let near: [(Id, &[u8]); 2] = [(id(0x22), b"b"), (id(0x33), b"a")];
    for (git_order, text) in [(false, b"a-2-g4444444"), (true, b"b-2-g4444444")] {
        let how = How {
            git_order,
            ..How::default()
        };
        let found = history.describe(id(0x44), &near, how)?;
        assert_eq!(found, Some((text.to_vec(), 2)));
    }
    let long = [b'v'; 100];
    assert_eq!(
        history.describe(id(0x11), &[(id(0x11), &long)], How::default())?,
        Some((long.to_vec(), 0))
    );
    Ok(())
}

#[test]
fn names_are_prepared_once() -> Result<(), Error> {
    let mut history = criss_cross()?;
    let text = b"v1".to_vec();
    let mut names = Names::new(&[(id(0x11), &text), (id(0x11), b"later")])?;
    drop(text);
    let found = Some((b"v1-3-g4444444".to_vec(), 3));
    for _ in 0..2 {
        assert_eq!(
            history.describe_by(id(0x99), &mut names, How::default()),
            Err(Error::NoCommit)
        );
        assert_eq!(
            history.describe_by(id(0x44), &mut names, How::default())?,
            found
        );
    }
    let mut none = Names::new(&[])?;
    assert_eq!(
        history.describe_by(id(0x44), &mut none, How::default())?,
        None
    );
    Ok(())
}

#[test]
fn lists_stay_as_they_are() -> Result<(), Error> {
    let mut history = criss_cross()?;
    let mut listed = history.list(Span::Include(id(0x55)), 1);
    assert_eq!(listed.next(), Some(Ok(id(0x11))));
    let rest: Result<Vec<_>, _> = listed.collect();
    assert_eq!(rest?, [id(0x22), id(0x33), id(0x55)]);
    Ok(())
}

#[test]
fn texts_are_resolved() -> Result<(), Error> {
    let mut history = criss_cross()?;
    history.name(b"main", id(0x44))?;
    let span = history.resolve(b"main~1..5555", 0, 0)?;
    assert_eq!(
        span,
        Span::Range {
            from: id(0x22),
            to: id(0x55)
        }
    );
    assert_eq!(
        history.list(span, 1).collect::<Result<Vec<_>, _>>()?,
        [id(0x33), id(0x55)]
    );
    history.name(b"5555", id(0x44))?;
    assert_eq!(history.rev_parse(b"5555", 0, 0)?, Span::Include(id(0x44)));
    let fault = Error::Fault {
        number: 12,
        start: 6,
        length: 9,
    };
    assert_eq!(
        fault.to_string(),
        "the revision has fault 12 at byte 6: no ref or commit has this name, or several commits \
         have it"
    );
    assert_eq!(history.resolve(b"main..nowhere~2", 0, 0), Err(fault));
    Ok(())
}

#[test]
fn pages_have_any_length() -> Result<(), Error> {
    let mut history = criss_cross()?;
    let span = Span::Include(id(0x55));
    let all = [id(0x11), id(0x22), id(0x33), id(0x55)];
    for page in [0, 1, 3, 4, 5, 1001, usize::MAX / 20, usize::MAX] {
        let listed: Result<Vec<_>, _> = history.list(span, page).collect();
        assert_eq!(listed?, all, "{page}");
    }
    let lost: Vec<Id> = (0..5500_u32)
        .map(|k| {
            let mut id = Id([0; 20]);
            id.0[16..].copy_from_slice(&k.to_be_bytes());
            id
        })
        .collect();
    history.insert(id(0x66), &lost, 6, None)?;
    for page in [1, 1000, 1001, 5499, 5500, 5501, usize::MAX] {
        assert_eq!(history.missing(None, page)?, lost[..page.min(5500)]);
    }
    assert_eq!(history.missing(None, 0)?, []);
    assert_eq!(history.missing(Some(lost[5498]), usize::MAX)?, [lost[5499]]);
    let mut found = history.missing_parents();
    assert_eq!(found.by_ref().collect::<Result<Vec<_>, _>>()?, lost);
    assert_eq!(found.next(), None);
    Ok(())
}

#[test]
fn ids_are_digits() {
    let text = "00112233445566778899aAbBcCdDeEfF00112233";
    let read: Id = text.parse().unwrap();
    assert_eq!(read.0[..3], [0, 0x11, 0x22]);
    assert_eq!(read.to_string(), text.to_lowercase());
    assert_eq!(format!("{read:?}"), format!("Id({read})"));
    for wrong in [
        "",
        &text[1..],
        &text.replace('2', "g"),
        &"é".repeat(20),
        &format!("{text}0"),
    ] {
        assert!(wrong.parse::<Id>().is_err(), "{wrong}");
    }
}

#[test]
fn commits_are_looked_up() -> Result<(), Error> {
    let mut history = criss_cross()?;
    let parents: Vec<Id> = (1..9).map(id).collect();
    history.insert(id(0x66), &parents, -6, Some(7))?;
    let commit = Commit {
        parents,
        time: -6,
        generation: Some(7),
    };
    assert_eq!(history.commit(id(0x66))?, Some(commit));
    assert_eq!(history.commit(id(0x99))?, None);
    assert_eq!(history.len(), 6);
    assert!(!history.is_empty());
    let mut near = id(0x66);
    near.0[4] = 0x67;
    assert_eq!(history.abbreviate(id(0x66), 0), 4);
    history.insert(near, &[], 6, None)?;
    assert_eq!(history.abbreviate(id(0x66), 7), 10);
    assert_eq!(history.abbreviate(id(0x11), usize::MAX), 40);
    Ok(())
}

#[test]
fn commits_are_checked() -> Result<(), Error> {
    let content = b"tree 4b825dc642cb6eb9a060e54bf8d69288fbee4904
parent 1111111111111111111111111111111111111111
author a <a@b> 5 +0000
committer a <a@b> 7 +0000

m
";
    let own: Id = "163ba4c0c966e03dfae90637407a44f5437f71f8".parse().unwrap();
    let other: Id = "b584dc718100df6c37020ad91e1b82d043e16312".parse().unwrap();
    let mut history = History::new()?;
    history.insert_object(own, content)?;
    let commit = Commit {
        parents: vec![id(0x11)],
        time: 7,
        generation: None,
    };
    assert_eq!(history.commit(own)?, Some(commit));
    assert_eq!(
        history.insert_object(own, content),
        Err(Error::AlreadyThere)
    );
    assert_eq!(history.insert_object(id(1), content), Err(Error::Altered));
    assert_eq!(
        history.insert_object(other, b"no commit\n"),
        Err(Error::Misshapen)
    );
    assert_eq!(history.len(), 1);
    Ok(())
}

#[test]
fn names_are_taken_back() -> Result<(), Error> {
    let mut history = criss_cross()?;
    history.name(b"main", id(0x44))?;
    assert!(history.unname(b"main")?);
    assert!(!history.unname(b"main")?);
    assert!(history.resolve(b"main", 0, 0).is_err());
    Ok(())
}

#[test]
fn versions_agree() {
    let (first, second, third) = library_version();
    assert_eq!(
        format!("{first}.{second}.{third}"),
        env!("CARGO_PKG_VERSION")
    );
}

#[test]
fn another_thread_uses_it() {
    let mut history = criss_cross().unwrap();
    let asked = std::thread::spawn(move || {
        history
            .merge_bases(id(0x44), &[id(0x55)])
            .map(|bases| bases.len())
    });
    assert_eq!(asked.join().unwrap(), Ok(2));
}
