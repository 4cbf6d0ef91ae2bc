// Transactions of one edge each by LMDB. The words are told in stores.h.

#include <arpa/inet.h>
#include <lmdb.h>

#include "stores.h"

namespace {

/// The bytes of a row's key, which are in the order of the rows.
struct Key {
    uint32_t source, target;
    Key(uint32_t source, uint32_t target) : source(htonl(source)), target(htonl(target)) {}
};

class Lmdb {
public:
    explicit Lmdb(const std::string& folder) {
        check(mdb_env_create(&environment), "mdb_env_create");
        check(mdb_env_set_mapsize(environment, size_t{8} << 30), "mdb_env_set_mapsize");
        check(mdb_env_open(environment, folder.c_str(), MDB_NOSYNC | MDB_WRITEMAP, 0600), "mdb_env_open");
        MDB_txn* transaction;
        check(mdb_txn_begin(environment, nullptr, 0, &transaction), "mdb_txn_begin");
        check(mdb_dbi_open(transaction, nullptr, 0, &table), "mdb_dbi_open");
        check(mdb_txn_commit(transaction), "mdb_txn_commit");
    }

    void load(const std::vector<Row>& rows) {
        MDB_txn* transaction;
        check(mdb_txn_begin(environment, nullptr, 0, &transaction), "mdb_txn_begin");
        for (const Row& row : rows) put(transaction, row, MDB_APPEND);
        check(mdb_txn_commit(transaction), "mdb_txn_commit");
    }

    class Session {
    public:
        explicit Session(Lmdb& lmdb) : lmdb(lmdb) {}

        bool make(Change change) {
            MDB_txn* transaction;
            check(mdb_txn_begin(lmdb.environment, nullptr, 0, &transaction), "mdb_txn_begin");
            const bool is_there = lmdb.has(transaction, change.source, change.target);
            const bool may = lmdb.has(transaction, change.source, 0) && lmdb.has(transaction, change.target, 0) &&
                             is_there == (change.act != Act::Add);
            if (may) lmdb.change(transaction, change);
            check(mdb_txn_commit(transaction), "mdb_txn_commit");
            return may;
        }

        Seen scan() {
            MDB_txn* transaction;
            MDB_cursor* cursor;
            check(mdb_txn_begin(lmdb.environment, nullptr, MDB_RDONLY, &transaction), "mdb_txn_begin");
            check(mdb_cursor_open(transaction, lmdb.table, &cursor), "mdb_cursor_open");
            Seen seen;
            MDB_val key, weight;
            while (mdb_cursor_get(cursor, &key, &weight, MDB_NEXT) == 0) {
                const Key* ends = static_cast<const Key*>(key.mv_data);
                seen.add({ntohl(ends->source), ntohl(ends->target), *static_cast<const uint32_t*>(weight.mv_data)});
            }
            mdb_cursor_close(cursor);
            mdb_txn_abort(transaction);
            return seen;
        }

    private:
        Lmdb& lmdb;
    };

private:
    bool has(MDB_txn* transaction, uint32_t source, uint32_t target) {
        Key ends(source, target);
        MDB_val key{sizeof ends, &ends}, weight;
        return mdb_get(transaction, table, &key, &weight) == 0;
    }

    void put(MDB_txn* transaction, Row row, unsigned flags) {
        Key ends(row.source, row.target);
        MDB_val key{sizeof ends, &ends}, weight{sizeof row.weight, &row.weight};
        check(mdb_put(transaction, table, &key, &weight, flags), "mdb_put");
    }

    void change(MDB_txn* transaction, Change change) {
        for (const auto& [source, target] :
             {std::pair(change.source, change.target), std::pair(change.target, change.source)}) {
            Key ends(source, target);
            MDB_val key{sizeof ends, &ends};
            if (change.act == Act::Drop)
                check(mdb_del(transaction, table, &key, nullptr), "mdb_del");
            else
                put(transaction, {source, target, change.weight()}, 0);
        }
    }

    MDB_env* environment;
    MDB_dbi table;
};

}  // namespace

int main(int count, char** words) { return run<Lmdb>(count, words); }
