# Files that the sqlite3 tool leaves behind, for make-samples and run. Sourced by them; the tool is on the path.

# A database of page size $2 with so many rows that it has seven to fifteen pages, or $3 rows.
base() { # DATABASE PAGE-SIZE [ROWS]
    rm -f "$1"
    sqlite3 "$1" "PRAGMA page_size=$2;
        CREATE TABLE usage(id INTEGER PRIMARY KEY, app TEXT, charge INTEGER);
        CREATE INDEX by_app ON usage(app);
        WITH RECURSIVE n(i) AS (SELECT 1 UNION ALL SELECT i + 1 FROM n WHERE i < ${3:-$(($2 / 8 + 150))})
        INSERT INTO usage SELECT i, 'app' || (i % 8), 3 * i FROM n;"
}

# A process of the tool is given lines and is killed as soon as it has done them: what is open stays open.
killed_after() { # DATABASE LINE..
    local database=$1 line
    shift
    coproc TOOL { exec sqlite3 "$database" 2>&1; }
    local process=$TOOL_PID
    printf '%s\n' "$@" "SELECT 'all done';" >&"${TOOL[1]}"
    while read -r line <&"${TOOL[0]}" && [ "$line" != 'all done' ]; do
        case $line in *rror*) echo "sqlite3: $line" >&2 ;; esac
    done
    kill -9 "$process"
    wait "$process" 2>/dev/null || true
}

# Transactions: one touches every page, one lets the file grow.
CHANGES="UPDATE usage SET charge = charge + 1, app = app || 'x';"
GROWS="INSERT INTO usage SELECT id + 10000, app, charge FROM usage;"

# A hot journal: NAME.db and NAME.db-journal as a killed process left them, from a base database. The sector is 512 bytes where the
# file system promises that a write touches no byte beside it (psow, as is usual), else 4,096.
hot() { # KIND BASE NAME SECTOR
    local uri
    cp "$2" "$3.db"
    rm -f "$3.db-journal"
    case $4 in 512) uri="file:$3.db?psow=1" ;; *) uri="file:$3.db?psow=0" ;; esac
    case $1 in
    unsynced) # no page has left the cache, so nothing is synced yet: the journal begins with zeros
        killed_after "$uri" "BEGIN;" "$CHANGES" ;;
    unsafe) # without syncs there is no count: all ones
        killed_after "$uri" "PRAGMA synchronous=OFF;" "PRAGMA cache_size=2;" "BEGIN;" "$CHANGES" ;;
    spill) # pages leave the cache inside the transaction: several headers with counts, and a changed, longer database
        killed_after "$uri" "PRAGMA cache_size=2;" "BEGIN;" "$CHANGES" "$GROWS" ;;
    persist) # the journal of a long transaction stays, wiped; that of a short one is written over its beginning
        killed_after "$uri" "PRAGMA journal_mode=PERSIST;" "PRAGMA cache_size=2;" "$CHANGES" "UPDATE usage SET charge = charge + 1;" \
            "BEGIN;" "UPDATE usage SET charge = 0 WHERE id < (SELECT max(id) / 2 FROM usage);" ;;
    wiped) # a journal of persist mode after its commit: nothing to bring back
        killed_after "$uri" "PRAGMA journal_mode=PERSIST;" "$CHANGES" ;;
    esac
}
KINDS='unsynced unsafe spill persist wiped'

# A log: NAME.db and NAME.db-wal as a killed process left them. No -shm is kept: it is made anew from the log.
logged() { # KIND NAME PAGE-SIZE
    local rows=24
    base "$2.db" "$3" $rows
    sqlite3 "$2.db" 'PRAGMA journal_mode=WAL;' >/dev/null
    rm -f "$2.db-wal"
    local first="PRAGMA wal_autocheckpoint=0;"
    case $1 in
    one) # one transaction
        killed_after "$2.db" "$first" "$CHANGES" ;;
    several) # four of them; rows come and go, so that the database grows
        killed_after "$2.db" "$first" "UPDATE usage SET charge = 7 WHERE id = 3;" "$CHANGES" "DELETE FROM usage WHERE id < 9;" \
            "INSERT INTO usage SELECT id + 100, app || printf('%.*c', $3 / 12, 'y'), charge FROM usage;" ;;
    tail) # one transaction, then one that has left the cache and was not committed: its frames are valid
        killed_after "$2.db" "$first" "PRAGMA cache_size=1;" "UPDATE usage SET charge = 7 WHERE id = 3;" "BEGIN;" \
            "UPDATE usage SET app = 'q' WHERE id = 4;" "CREATE TABLE more(bytes);" "INSERT INTO more VALUES(zeroblob(3 * $3));" ;;
    torn) # the same, but pages have left twice: SQLite writes over the frame, and leaves the sums behind it for the commit
        killed_after "$2.db" "$first" "PRAGMA cache_size=1;" "UPDATE usage SET charge = 7 WHERE id = 3;" "BEGIN;" "$CHANGES" \
            "INSERT INTO usage SELECT id + 100, printf('%.*c', $3 / 4, 'z'), charge FROM usage;" ;;
    restarted) # a long log, checkpointed; a short one over its beginning, with other salts
        killed_after "$2.db" "$first" "$CHANGES" "UPDATE usage SET charge = 1;" "PRAGMA wal_checkpoint;" "UPDATE usage SET charge = 8 WHERE id = 20;" ;;
    esac
    rm -f "$2.db-shm"
}
LOG_KINDS='one several tail torn restarted'

# What SQLite makes of NAME.db and its log: how many frames it takes, then the database after the checkpoint in NAME.db.
recovered() { # NAME
    sqlite3 "$1.db" 'PRAGMA wal_checkpoint;' | cut -d'|' -f2
}
