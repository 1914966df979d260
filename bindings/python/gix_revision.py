"""The name that the package gix_revision_proved had at first."""

from gix_revision_proved import *  # noqa: F403
