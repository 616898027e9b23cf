"""`sancus tag`: what it makes is accepted by the program, and `forged` comes before it."""

import unittest

from support import EXAMPLES, Room, needs_program, sancus

LAMP = "deploy eye logic lamp\n"


@needs_program
class Tag(Room):
    def trace(self, before, line, *after):
        """The items of a schedule for people with a made packet `made` in it."""
        lines = "\n".join([before + line.strip() + " as made", *after, ""])
        ran = sancus("run", "--no-images", EXAMPLES / "lighting.txt", self.file("lines.txt", lines))
        self.assertEqual(ran.status, 0, ran.said)
        return ran.lines

    def tag(self, *words):
        made = sancus("tag", words[0], EXAMPLES / "lighting.txt", *words[1:])
        self.assertEqual(made.status, 0, made.said)
        return made.out.decode()

    def test_a_known_packet(self):
        wanted = next(it for it in (EXAMPLES / "public_key.txt").read_text().splitlines() if it.startswith("forge "))
        made = sancus("tag", "event", EXAMPLES / "public_key.txt", "up", "--value", "1")
        self.assertEqual(made.lines, [wanted])

    def test_an_event(self):
        made = self.tag("event", "up", "--number", "5", "--value", "999")
        self.assertEqual(
            self.trace(LAMP, made, "give made a", "call logic 2")[-5:],
            ["packet 10 24", "forged logic", "take logic up 5 999", "done logic 1 1", "end"],
        )

    def test_a_set_key_packet(self):
        made = self.tag("set-key", "down", "to", "--epoch", "1")
        self.assertEqual(
            self.trace(LAMP, made, "give made b", "call lamp 0")[-4:],
            ["forged lamp", "open lamp down to 1", "done lamp 1 0", "end"],
        )

    def test_of_a_later_epoch_and_boot(self):
        key = self.tag("set-key", "down", "to", "--epoch", "3", "--boot", "1")
        event = self.tag("event", "down", "--epoch", "3", "--number", "2", "--value", "7")
        given = ["give made b", "call lamp 0", event.strip() + " as event", "give event b", "call lamp 2"]
        items = self.trace("reset b\nload lamp\n", key, *given)
        self.assertEqual(items[-4:-2], [f"take lamp down {3 * 65536 + 2} 7", "out lamp 7"])

    def test_an_answer(self):
        made = self.tag("answer", "eye", "--challenge", "1")
        self.assertEqual(
            self.trace("load eye\nask lamp\nask eye\n", made, "answer eye made")[-4:-1],
            ["forged deployer", "attested eye 0", "packet 3 38"],
        )

    def test_what_is_refused(self):
        lighting = EXAMPLES / "lighting.txt"
        for words, status, said in (
            (("key", lighting, "up"), 2, "key is no packet: event, set-key, answer"),
            (("event", lighting), 2, "`tag event` takes DEPLOYMENT CONNECTION"),
            (("event", lighting, "up", "--boot", "1"), 2, "`tag event` has no use for --boot"),
            (("event", lighting, "up", "--epoch", "256"), 2, "--epoch takes a number from 0 to 255, and not `256`"),
            (("event", lighting, "dwn"), 122, "there is no connection dwn; the connections: up down; did you mean `down`?"),
            (("set-key", lighting, "up", "both"), 2, "an end is `from` or `to`, and not `both`"),
        ):
            made = sancus("tag", *words)
            self.assertEqual((made.status, made.out), (status, b""))
            self.says(made, said)


if __name__ == "__main__":
    unittest.main()
