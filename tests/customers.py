"""Customers, and what is asked of them: each query with the `_id`s of those that it selects, by the rules of docs/QUERIES.md. Over the
command line and over lines, with indexes and without, the answers are these."""

CUSTOMERS = [
    {"_id": 1, "tags": ["vip", "new"], "age": 34, "orders": [{"article": "tea", "count": 3}, {"article": "milk", "count": 1}]},
    {"_id": 2, "tags": "vip", "age": 17.5, "orders": [{"article": "tea", "count": 1}, {"article": "milk", "count": 5}]},
    {"_id": 3, "tags": ["new"], "age": {"$numberDecimal": "34"}, "orders": []},
    {"_id": 4},
]
ASKED = [
    # an array is its items
    ('{"tags":"vip"}', [1, 2]), ('{"tags":["vip","new"]}', [1]), ('{"tags":["new","vip"]}', []), ('{"tags":{"$ne":"vip"}}', [3, 4]),
    ('{"tags":{"$in":["vip","x"]}}', [1, 2]), ('{"tags":{"$nin":["vip","x"]}}', [3, 4]), ('{"tags":{"$all":["new","vip"]}}', [1]),
    ('{"tags":{"$size":2}}', [1]), ('{"orders":{"$size":0}}', [3]), ('{"tags.0":"new"}', [3]), ('{"tags":{"$type":"array"}}', [1, 3]),
    ('{"tags":{"$type":"string"}}', [1, 2, 3]), ('{"orders.article":"tea"}', [1, 2]), ('{"orders.1.article":"milk"}', [1, 2]),
    ('{"orders.article":{"$ne":"tea"}}', [3, 4]), ('{"orders":[]}', [3]), ('{"orders.article":null}', [4]),
    # several things of one item
    ('{"orders.article":"tea","orders.count":{"$gt":2}}', [1, 2]), ('{"orders":{"$elemMatch":{"article":"tea","count":{"$gt":2}}}}', [1]),
    ('{"tags":{"$elemMatch":{"$gt":"o","$lt":"w"}}}', [1]),
    ('{"orders":{"$all":[{"$elemMatch":{"article":"tea"}},{"$elemMatch":{"count":5}}]}}', [2]),
    # ranges, and numbers by value
    ('{"age":{"$gte":17,"$lt":34}}', [2]), ('{"age":{"$gt":17.5}}', [1, 3]), ('{"age":{"$lte":34}}', [1, 2, 3]), ('{"age":34}', [1, 3]),
    ('{"age":{"$numberLong":"34"}}', [1, 3]), ('{"age":{"$not":{"$gt":17.5}}}', [2, 4]), ('{"age":{"$mod":[17,0]}}', [1, 2, 3]),
    ('{"tags":{"$gte":"vip"}}', [1, 2]), ('{"age":{"$gt":"0"}}', []), ('{"age":{"$lt":{"$maxKey":1}}}', [1, 2, 3, 4]),
    ('{"_id":{"$gt":1,"$lte":3}}', [2, 3]),
    # what is there, and queries together
    ('{"orders":{"$exists":0}}', [4]), ('{"$nor":[{"tags":"vip"},{"orders":{"$size":0}}]}', [4]), ('{"$comment":"all"}', [1, 2, 3, 4]),
    ('{"$or":[{"age":{"$lt":18}},{"tags":{"$size":1}}]}', [2, 3]), ('{"$comment":"one","age":{"$type":"decimal"}}', [3]),
]
