/* The functions of the NIF library, for their declarations and their table: name, arity, flags. A call that may take a
 * millisecond runs on a dirty scheduler. If that depends on its arguments, it is SHORT, and may return ELSEWHERE. */
#ifndef CALLS_H
#define CALLS_H

#define SHORT 0
#define LONG ERL_NIF_DIRTY_JOB_CPU_BOUND

#define CALLS(X)                                                                                                       \
    X(wait, 4, SHORT)                                                                                                  \
    X(version, 0, SHORT)                                                                                               \
    X(name, 1, SHORT)                                                                                                  \
    X(place, 3, SHORT)                                                                                                 \
    X(compare, 2, SHORT)                                                                                               \
    X(merge, 2, SHORT)                                                                                                 \
    X(read_offer, 1, SHORT)                                                                                            \
    X(new, 4, LONG)                                                                                                    \
    X(new_seeded, 6, LONG)                                                                                             \
    X(close, 1, LONG)                                                                                                  \
    X(renew, 2, LONG)                                                                                                  \
    X(renewal, 1, SHORT)                                                                                               \
    X(renewal_of_moment, 4, LONG)                                                                                      \
    X(renewal_build, 1, LONG)                                                                                          \
    X(renewal_catch_up, 2, SHORT)                                                                                      \
    X(renewal_finish, 1, SHORT)                                                                                        \
    X(renewal_close, 1, SHORT)                                                                                         \
    X(keep_renewed, 1, SHORT)                                                                                          \
    X(due_renewal, 1, SHORT)                                                                                           \
    X(migrate, 1, LONG)                                                                                                \
    X(about, 1, SHORT)                                                                                                 \
    X(count, 1, SHORT)                                                                                                 \
    X(bytes, 1, LONG)                                                                                                  \
    X(rehash_some, 2, LONG)                                                                                            \
    X(hold, 1, LONG)                                                                                                   \
    X(drop_moment, 1, LONG)                                                                                            \
    X(take_portion, 2, SHORT)                                                                                          \
    X(hash_portion, 1, LONG)                                                                                           \
    X(install_portion, 2, SHORT)                                                                                       \
    X(moment, 1, LONG)                                                                                                 \
    X(snapshot_of_moment, 3, LONG)                                                                                     \
    X(exchange_of_moment, 6, LONG)                                                                                     \
    X(load_rows, 2, SHORT)                                                                                             \
    X(load_format, 3, SHORT)                                                                                           \
    X(put, 5, SHORT)                                                                                                   \
    X(put_unread, 5, SHORT)                                                                                            \
    X(accept, 3, SHORT)                                                                                                \
    X(get, 2, SHORT)                                                                                                   \
    X(read, 3, SHORT)                                                                                                  \
    X(count_versions, 2, SHORT)                                                                                        \
    X(value, 3, SHORT)                                                                                                 \
    X(clock, 3, SHORT)                                                                                                 \
    X(row, 2, SHORT)                                                                                                   \
    X(key_after, 3, SHORT)                                                                                             \
    X(entry, 2, SHORT)                                                                                                 \
    X(packed_entries, 2, SHORT)                                                                                        \
    X(top_counter, 4, LONG)                                                                                            \
    X(snapshot, 1, LONG)                                                                                               \
    X(snapshot_share, 1, SHORT)                                                                                        \
    X(snapshot_close, 1, LONG)                                                                                         \
    X(snapshot_info, 1, SHORT)                                                                                         \
    X(snapshot_bytes, 1, LONG)                                                                                         \
    X(snapshot_row, 2, SHORT)                                                                                          \
    X(snapshot_key_after, 3, SHORT)                                                                                    \
    X(root, 1, SHORT)                                                                                                  \
    X(digest, 3, SHORT)                                                                                                \
    X(offer, 2, SHORT)                                                                                                 \
    X(serve, 3, SHORT)                                                                                                 \
    X(rows, 2, SHORT)                                                                                                  \
    X(exchange_asks, 1, LONG)                                                                                          \
    X(exchange_take, 2, SHORT)                                                                                         \
    X(exchange_lose, 2, SHORT)                                                                                         \
    X(exchange_go_on, 1, SHORT)                                                                                        \
    X(exchange_progress, 1, SHORT)                                                                                     \
    X(exchange_left, 1, LONG)                                                                                          \
    X(exchange_close, 1, LONG)                                                                                         \
    X(drop_sessions, 1, LONG)                                                                                          \
    X(hints_new, 0, SHORT)                                                                                             \
    X(hints_restore, 1, SHORT)                                                                                         \
    X(hints_close, 1, LONG)                                                                                            \
    X(hint_keep, 4, SHORT)                                                                                             \
    X(hint_next, 3, SHORT)                                                                                             \
    X(hint, 2, SHORT)                                                                                                  \
    X(hint_confirm, 3, SHORT)                                                                                          \
    X(hints_renew, 1, LONG)                                                                                            \
    X(hints_count, 1, SHORT)                                                                                           \
    X(hints_bytes, 1, SHORT)                                                                                           \
    X(slots_new, 3, SHORT)                                                                                             \
    X(slots_close, 1, SHORT)                                                                                           \
    X(slot_lend, 1, SHORT)                                                                                             \
    X(slot_give_back, 1, SHORT)                                                                                        \
    X(slots_sample, 3, SHORT)                                                                                          \
    X(slots_adjust, 2, SHORT)                                                                                          \
    X(slots_set_target, 2, SHORT)                                                                                      \
    X(slots_count, 1, SHORT)

#endif
