"""The program is killed at random moments: what was answered is there, and at most the change that was under way
more."""
import random
import threading
import unittest

from common import SEED, WithFolder

import fallowtime

KILLS, MOST_KILLS = 50, 500
KINDS = ["insert", "insert", "many", "replace", "set", "sets", "unset", "delete"]


class Kills(WithFolder):
    # On the disk, for which each change waits.
    place = None

    def test_kills(self):
        generator = random.Random(SEED)
        state = {}
        under_way_was_done = answered = 0
        number = 0
        kills = 0
        # On a machine that is busy few changes are answered before the kill.
        while kills < KILLS or answered <= KILLS and kills < MOST_KILLS:
            kills += 1
            store = self.open()
            self.assertEqual(self.found(store), state)
            killer = threading.Timer(generator.uniform(0.001, 0.06), store._session._process.kill)
            killer.start()
            while True:
                after = dict(state)
                number += 1
                change = self.change(generator, number, after)
                try:
                    change(store["c"])
                except fallowtime.Ended:
                    break
                state = after
                answered += 1
            killer.join()
            self.assertRaises(fallowtime.Ended, store["c"].find_one)
            store.close()
            with self.open() as store:
                found = self.found(store)
            if found != state:
                self.assertEqual(found, after)
                state = after
                under_way_was_done += 1
            if len(state) > 2000:
                state = {}
                (self.folder / "test.db").unlink()
                for name in "test.db-wal", "test.db-shm":
                    (self.folder / name).unlink(missing_ok=True)
        self.assertGreater(answered, KILLS)
        print(f"{kills} kills, {answered} changes that were answered, {under_way_was_done} more that were done")

    def found(self, store):
        return {document["_id"]: document for document in store["c"].find()}

    def change(self, generator, number, state):
        """A change, which is made to the state as well."""
        kind = generator.choice(KINDS) if state else "insert"
        own = generator.choice(list(state)) if state else None
        if kind == "insert":
            document = {"_id": number, "t": "x" * generator.randrange(2000)}
            state[number] = document
            return lambda collection: collection.insert_one(document)
        if kind == "many":
            places = range(1, generator.randrange(2, 200))
            documents = [{"_id": number + place / 1000, "n": place, "t": "y" * 500} for place in places]
            state.update((document["_id"], document) for document in documents)
            return lambda collection: collection.insert_many(documents)
        if kind == "replace":
            state[own] = {"_id": own, "r": number}
            return lambda collection: collection.replace_one({"_id": own}, {"r": number})
        if kind == "set":
            state[own] = {**state[own], "s": number}
            return lambda collection: collection.update_one({"_id": own}, {"$set": {"s": number}})
        if kind == "sets":
            state[own] = {**state[own], "a": [number], "b": number}
            return lambda collection: collection.update_one({"_id": own}, {"$set": {"a": [number], "b": number}})
        if kind == "unset":
            state[own] = {key: value for key, value in state[own].items() if key != "t"}
            return lambda collection: collection.update_one({"_id": own}, {"$unset": {"t": 1}})
        del state[own]
        return lambda collection: collection.delete_one({"_id": own})


if __name__ == "__main__":
    unittest.main()
