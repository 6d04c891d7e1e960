"""What the tests of a built wdp share: worked texts, and how a run is judged."""
