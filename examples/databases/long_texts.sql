-- An entry of a B-tree index of PostgreSQL has at most 2,704 bytes after compression. So the index on `key` that load_postgresql.sh
-- makes rejects the keys of long texts. This index has the first 2,000 bytes of each key, and takes all of them.
drop index words_key;
create index words_begin on words (substring(key from 1 for 2000));
analyze words;

-- The order is the same: by the first 2,000 bytes, which the index gives, and then by the whole key.
--     select word from words order by substring(key from 1 for 2000), key, number;
