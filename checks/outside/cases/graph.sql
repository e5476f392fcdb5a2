-- Recursive queries, an index, a transaction that is taken back.
create table edge(a integer, b integer);
with recursive n(x) as (select 1 union all select x + 1 from n where x < 400) insert into edge select x / 2, x from n;
create index by_a on edge(a);
begin;
delete from edge where b % 3 = 0;
select count(*) from edge;
rollback;
select count(*), sum(a), avg(b) from edge;
with recursive below(x, depth) as (select 3, 0 union all select b, depth + 1 from edge join below on a = x)
  select depth, count(*), min(x), max(x) from below group by depth;
explain query plan select b from edge where a = 7;
select printf('%.6f', 2.0 / 3), hex(zeroblob(3)), upper('abc'), json_extract('{"a":[1,2,3]}', '$.a[1]');
pragma integrity_check;
