select(test("^[0-9]")) | split(" ") | {
  record: .[0] | tonumber,
  side: .[1],
  verdict: .[2],
  frames: .[3] | tonumber,
  rules: .[4:] | map(select(test("^[A-Z]"))),
  era: (.[4:] | map(select(startswith("@")) | .[1:] | tonumber)[0]),
  began: (.[4:] | map(select(startswith("+")) | .[1:] | tonumber)[0]),
  ended: .[4:] | map(select(startswith("-")) | .[1:])
}
