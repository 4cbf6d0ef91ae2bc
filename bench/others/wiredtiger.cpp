// Transactions of one edge each by WiredTiger, in memory and under snapshot isolation. The words are told in stores.h.

#include <wiredtiger.h>

#include "stores.h"

namespace {

class WiredTiger {
public:
    explicit WiredTiger(const std::string& folder) {
        check(wiredtiger_open(folder.c_str(), nullptr, "create,in_memory=true,cache_size=8GB,session_max=16",
                              &connection),
              "wiredtiger_open");
    }

    void load(const std::vector<Row>& rows) {
        WT_SESSION* session;
        WT_CURSOR* cursor;
        check(connection->open_session(connection, nullptr, nullptr, &session), "open_session");
        check(session->create(session, "table:rows", "key_format=II,value_format=I"), "create");
        check(session->open_cursor(session, "table:rows", nullptr, nullptr, &cursor), "open_cursor");
        for (const Row& row : rows) {
            cursor->set_key(cursor, row.source, row.target);
            cursor->set_value(cursor, row.weight);
            check(cursor->insert(cursor), "insert");
        }
        check(session->close(session, nullptr), "close");
    }

    class Session {
    public:
        explicit Session(WiredTiger& store) {
            check(store.connection->open_session(store.connection, nullptr, "isolation=snapshot", &session),
                  "open_session");
            check(session->open_cursor(session, "table:rows", nullptr, "overwrite=false", &cursor), "open_cursor");
        }

        ~Session() { session->close(session, nullptr); }

        /// Tries again where another thread's transaction clashes.
        bool make(Change change) {
            for (;;) {
                check(session->begin_transaction(session, nullptr), "begin_transaction");
                const int answer = try_to_make(change);
                if (answer == 0) {
                    check(session->commit_transaction(session, nullptr), "commit_transaction");
                    return true;
                }
                check(session->rollback_transaction(session, nullptr), "rollback_transaction");
                if (answer != WT_ROLLBACK) return false;
            }
        }

        Seen scan() {
            Seen seen;
            check(session->begin_transaction(session, nullptr), "begin_transaction");
            while (cursor->next(cursor) == 0) {
                Row row;
                cursor->get_key(cursor, &row.source, &row.target);
                cursor->get_value(cursor, &row.weight);
                seen.add(row);
            }
            check(cursor->reset(cursor), "reset");
            check(session->commit_transaction(session, nullptr), "commit_transaction");
            return seen;
        }

    private:
        int try_to_make(Change change) {
            for (const uint32_t vertex : {change.source, change.target}) {
                cursor->set_key(cursor, vertex, 0);
                if (const int answer = cursor->search(cursor)) return answer;
            }
            for (const auto& [source, target] :
                 {std::pair(change.source, change.target), std::pair(change.target, change.source)}) {
                cursor->set_key(cursor, source, target);
                cursor->set_value(cursor, change.weight());
                const int answer = change.act == Act::Add   ? cursor->insert(cursor)
                                   : change.act == Act::Set ? cursor->update(cursor)
                                                            : cursor->remove(cursor);
                if (answer != 0) return answer;
            }
            return 0;
        }

        WT_SESSION* session;
        WT_CURSOR* cursor;
    };

private:
    WT_CONNECTION* connection;
};

}  // namespace

int main(int count, char** words) { return run<WiredTiger>(count, words); }
