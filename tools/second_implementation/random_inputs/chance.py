"""A source of chance: the same seed makes the same inputs."""
import random


class Chance(random.Random):
    """Random numbers, and what is often asked of them."""

    def happens(self, share):
        """True in this share of cases."""
        return self.random() < share

    def any_case(self, text):
        """A text with the case of its ASCII letters changed here and there."""
        return "".join(self.choice([char.lower(), char.upper()]) if char.isascii() else char for char in text)
