#!/usr/bin/python3
"""What a program with mongoengine does, unchanged, over the relay whose address it is given. It ends with status 1 at the first answer
that isn't as it should be."""
import sys

import mongoengine as me

me.connect("shop", host=sys.argv[1], serverSelectionTimeoutMS=10_000)
STEPS = []


class Address(me.EmbeddedDocument):
    city = me.StringField()


class User(me.Document):
    email = me.StringField(required=True)
    age = me.IntField()
    tags = me.ListField(me.StringField())
    home = me.EmbeddedDocumentField(Address)


def holds(what, found, wanted):
    if found != wanted:
        sys.exit(f"{what}: {found!r} in place of {wanted!r}")
    STEPS.append(what)


def save(user):
    user.age = 99
    user.save()
    return User.objects.get(id=user.id).age


def main():
    own = User(email="a@x", age=30, tags=["p", "q"], home=Address(city="Ulm")).save()
    holds("insert", len(User.objects.insert([User(email=f"u{number}@x", age=number) for number in range(5)])), 5)
    holds("count", User.objects(age__gte=3).count(), 3)
    holds("filter", [user.email for user in User.objects(home__city="Ulm")], ["a@x"])
    holds("order", [user.age for user in User.objects.order_by("-age")[:3]], [30, 4, 3])
    holds("update", User.objects(age__lt=3).update(inc__age=10), 3)
    User.objects(email="n@x").update_one(set__age=7, upsert=True)
    holds("upsert", User.objects.get(email="n@x").age, 7)
    holds("modify", User.objects(email="a@x").modify(push__tags="r", new=True).tags, ["p", "q", "r"])
    holds("save", save(User.objects.get(id=own.id)), 99)
    holds("distinct", sorted(User.objects.distinct("age")), [3, 4, 7, 10, 11, 12, 99])
    holds("only", User.objects.only("email").first().age, None)
    holds("in", User.objects(age__in=[7, 99]).count(), 2)
    holds("delete", User.objects(age__gt=9).delete(), 4)
    User.drop_collection()
    holds("drop", User.objects.count(), 0)
    print(f"{len(STEPS)} steps of mongoengine")


main()
