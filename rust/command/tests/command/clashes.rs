//! What the limits of a clash allow without each other.

use super::{json, ran};

#[test]
fn values_without_each_limit() {
    let (said, _, status) =
        ran(&["solve", "--each", "-"], b"names x y\nx > 2\ny >= 2\nx + y <= 4\nx <= 9");
    assert_eq!(status, 1);
    for line in [
        "#   without line 2   x = 0, y = 2",
        "#   without line 3   x = 2 + small, y = 0",
        "#   without line 4   x = 2 + small, y = 2",
    ] {
        assert!(said.lines().any(|other| other == line), "no {line} in\n{said}");
    }
    assert!(!said.contains("line 5"), "{said}");
    let steep = b"names a b\n20 <= a <= 30\nb - a <= 40\na + b <= 55\nb >= 90\n";
    let (said, _, _) = ran(&["solve", "--each", "-"], steep);
    for line in [
        "# One of them loosened to this, and this clash is over (another may show then):",
        "#   line 2 upper   a <= 50",
        "#   line 3         b - a <= 60",
        "#   line 5         b >= 70",
        "# One of them left out, and all other limits kept:",
        "#   without line 2 upper   cannot still, for line 3, line 4, line 5",
        "#   without line 5         can: a = 20, b = 0",
    ] {
        assert!(said.lines().any(|other| other == line), "no {line} in\n{said}");
    }
    let (said, _, _) = ran(&["--json", "solve", "--each", "-"], steep);
    let json = json::read(&said).unwrap();
    let [upper, step, last] = json.at("limits").list() else { panic!("{said}") };
    assert_eq!(upper.at("rest").at("verdict").text(), "cannot");
    assert_eq!(upper.at("rest").at("limits").list().len(), 3);
    assert_eq!(step.at("loosened").at("decimal").text(), "60");
    assert_eq!(last.at("rest").at("values").list()[0].at("decimal").text(), "20");
    let (said, _, _) = ran(&["--json", "solve", "--each", "-"], b"names x\n5 < x <= 5");
    assert!(
        json::is_one_line(&said) && said.matches("\"without\":[{\"name\":").count() == 2,
        "{said}"
    );
    let (can, _, status) = ran(&["solve", "--each", "-"], b"names x\nx > 2");
    assert_eq!((can, status), (ran(&["solve", "-"], b"names x\nx > 2").0, 0));
}
