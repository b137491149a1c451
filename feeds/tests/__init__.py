"""Tests of the feeds against real brokers: `feeds/test`."""
