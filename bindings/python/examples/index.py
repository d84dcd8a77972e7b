"""A secondary index: records of people by their ids, and an index by town and name that leads to the ids.

A key of the index is the town, the name and the id, each text with a zero at its end, and the id in eight bytes: so
no key begins another, and two people may have one name in one town. What begins with a town and a zero is that town.
"""
from __future__ import annotations

from typing import Iterator, NamedTuple

from artmap import Art


class Person(NamedTuple):
    number: int
    town: str
    name: str

    def key(self) -> bytes:
        return text(self.town, self.name) + self.number.to_bytes(8, "big")


PEOPLE = [
    Person(7, "York", "Ada Hill"), Person(12, "Leeds", "Ben Moor"), Person(19, "York", "Cy Dale"),
    Person(23, "Yorkshire Dales", "Di Fell"), Person(31, "Leeds", "Ada Hill"), Person(40, "York", "Ada Hill"),
]  # fmt: skip


def text(*parts: str) -> bytes:
    return b"".join(part.encode() + b"\0" for part in parts)


class People:
    """Records by id, and an index of them by town and name, whose values are the records themselves."""

    def __init__(self) -> None:
        self.records: Art[int, Person] = Art(key=int)
        self.index: Art[bytes, Person] = Art()

    def put(self, person: Person) -> None:
        """Puts a person in, in the place of the one with this id if there is one."""
        self.remove(person.number)
        self.records[person.number] = self.index[person.key()] = person

    def remove(self, number: int) -> bool:
        person = self.records.pop(number, None)
        if person is not None:
            del self.index[person.key()]
        return person is not None

    def of(self, *parts: str) -> Iterator[Person]:
        """The people of a town, or of a town and a name, by name and then by id."""
        return (person for _, person in self.index.prefix(text(*parts)))


def main() -> None:
    people = People()
    for person in PEOPLE:
        people.put(person)
    print("in York:")
    for person in people.of("York"):
        print(f"  {person.name}, {person.number}")
    print("called Ada Hill, in Leeds:", *(person.number for person in people.of("Leeds", "Ada Hill")))
    people.put(Person(12, "York", "Ben Moor"))
    print("12 moves, and York has:", *(person.number for person in people.of("York")))
    print("ids from 10 to 29:", *people.records.irange(10, 29))
    print("the last town:", people.index.peekitem()[1].town)
    print("is 19 removed:", people.remove(19), people.remove(19))
    print("left:", len(people.records), len(people.index))


if __name__ == "__main__":
    main()
