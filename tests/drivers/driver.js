// What driver.py asks, by Node's driver: driver.js ADDRESS.
'use strict';
const {MongoClient} = require('mongodb');

async function step(name, ask) {
    try {
        console.log(name, await ask());
    } catch (error) {
        console.log(name, 'error', error.code === undefined ? error : error.code);
    }
}

async function main() {
    const client = new MongoClient(process.argv[2], {useUnifiedTopology: true, serverSelectionTimeoutMS: 10000});
    await client.connect();
    const database = client.db();
    const items = database.collection('node');
    const upTo = (from, end) => [...Array(end - from).keys()].map((n) => ({_id: n + from, a: (n + from) % 7}));
    const totals = (found) => JSON.stringify([found.length, found.reduce((sum, one) => sum + one.a, 0)]);
    await step('ping', async () => (await client.db('admin').command({ping: 1})).ok);
    await step('insert_one', async () => (await items.insertOne({_id: 1, a: 1})).insertedId);
    await step('insert_many', async () => (await items.insertMany(upTo(2, 300))).insertedCount);
    await step('duplicate', () => items.insertOne({_id: 1}));
    await step('unordered', async () => {
        try {
            await items.insertMany([{_id: 1}, {_id: 1000, a: 7}, {_id: 2}], {ordered: false});
        } catch (error) {
            return JSON.stringify([error.result.nInserted, error.writeErrors.map((one) => one.index)]);
        }
    });
    await step('batches', async () => totals(await items.find({}).batchSize(50).toArray()));
    await step('default_batches', async () => totals(await items.find({}).toArray()));
    await step('closed_cursor', async () => {
        const cursor = items.find({}).batchSize(10);
        await cursor.next();
        await cursor.close();
        return (await items.findOne({_id: 3})).a;
    });
    await step('find_one', async () => JSON.stringify(await items.findOne({_id: 5})));
    await step('find_none', () => items.findOne({_id: 5000}));
    await step('sorted', async () => JSON.stringify((await items.find({a: 3}).sort({_id: -1}).limit(2).toArray()).map((one) => one._id)));
    await step('count', () => items.countDocuments({a: 3}));
    await step('estimated', () => items.estimatedDocumentCount());
    await step('distinct', async () => JSON.stringify((await items.distinct('a')).sort()));
    await step('replace_one', async () => (await items.replaceOne({_id: 5}, {a: 6})).modifiedCount);
    await step('upsert', async () => (await items.replaceOne({_id: 5000}, {a: 6}, {upsert: true})).upsertedId._id);
    await step('update_one', async () => (await items.updateOne({_id: 6}, {$set: {b: 1}})).modifiedCount);
    await step('update_many', async () => (await items.updateMany({a: 2}, {$inc: {a: 100}})).modifiedCount);
    await step('delete_one', async () => (await items.deleteOne({_id: 7})).deletedCount);
    await step('delete_many', async () => (await items.deleteMany({a: 4})).deletedCount);
    await step('unanswered', async () => {
        await items.insertOne({_id: 9999, a: 7}, {w: 0});
        return (await items.findOne({_id: 9999})).a;
    });
    await step('unknown_command', () => database.command({nosuch: 1}));
    await step('unknown_operator', () => items.findOne({a: {$nosuch: 1}}));
    await step('collections', async () => (await database.listCollections().toArray()).some((one) => one.name === 'node'));
    await step('long_documents', async () => {
        const texts = database.collection('node_long');
        await texts.insertMany([...Array(20).keys()].map((n) => ({_id: n, text: 'x'.repeat(1000000)})));
        return (await texts.find({}).batchSize(8).toArray()).reduce((sum, one) => sum + one.text.length, 0);
    });
    await step('drop', () => items.drop());
    await client.close();
}

main().catch((error) => {
    console.log('end', error);
    process.exit(1);
});
