"""A small shop: orders with their prices, one that comes twice, questions, and a back-up."""
import sys
from decimal import Decimal

import fallowtime

ADA = {"name": "Ada", "city": "Ulm"}
MAX = {"name": "Max", "city": "Berlin"}
TEA = {"article": "tea", "price": Decimal("4.50")}
POT = {"article": "pot", "price": Decimal("31.00")}

with fallowtime.open(sys.argv[1]) as shop:
    orders = shop["orders"]
    orders.insert_many([
        {"_id": 1, "customer": ADA, "weight": 0.5, "lines": [TEA, TEA]},
        {"_id": 2, "customer": MAX, "weight": 2.0, "lines": [POT]},
        {"_id": "A-3", "customer": ADA, "weight": 1.25, "lines": [TEA, POT]},
    ])
    try:
        orders.insert_one({"_id": 2, "customer": ADA})
    except fallowtime.DuplicateKeyError as refused:
        print("refused:", refused)

    for order in orders.find():
        total = sum(line["price"] for line in order["lines"])
        orders.update_one({"_id": order["_id"]}, {"$set": {"total": total, "paid": False}})
    print(orders.update_one({"customer.name": "Max"}, {"$set": {"paid": True}}))
    print("from Ulm:", orders.count_documents({"customer.city": "Ulm"}))
    print("to be paid:", sum(order["total"] for order in orders.find({"paid": False})))
    for order in orders.find().sort("total"):
        print(order["_id"], order["customer"]["name"], order["weight"], order["total"])

    shop.backup("before.db")
    print(orders.delete_one({"_id": "A-3"}))
    orders.replace_one({"_id": 4}, {"customer": MAX, "lines": []}, upsert=True)
    print(orders.find_one(4))

with fallowtime.open("before.db") as before:
    print([order["_id"] for order in before["orders"].find()])
