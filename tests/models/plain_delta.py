"""What a primary tells a standby that is behind the position at which it was opened, from docs/replication.md ("Deltas"): the changes that are
left of those that the standby lacks, made of an image."""

import typing

import plain_image
from plain_keyspace import Drop, Put


class Opening(typing.NamedTuple):
    """What is remembered of an opening: its position, the records of versions that had ended and that had no live one, and the live versions,
    both in the order of records."""

    position: int
    gone: tuple
    live: tuple


# That of a primary that was formatted.
FORMATTED = Opening(0, (), ())


def opening_of(image):
    """The opening of a primary over this image, of which no stamp lies in a gap."""
    versions = plain_image.versions_on(plain_image.Words(image.lines, image.words))
    live = sorted(version for version in versions if not version.has_ended)
    gone = {version.name for version in versions if version.has_ended} - {version.name for version in live}
    return Opening(image.record.position, tuple(sorted(gone)), tuple(live))


def changes_since(position, opening):
    """The records that are gone are dropped, and then those are put whose change comes after this position."""
    return (*map(Drop, opening.gone), *(Put(version.name, version.value) for version in opening.live if version.position > position))
