"""Texts and files that an enemy chose, by what they are for; bench/hostile measures each."""
