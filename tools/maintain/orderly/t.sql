create table t(a integer primary key, b text, c real);
with recursive n(i) as (select 1 union all select i + 1 from n where i < 150) insert into t select i, 'w' || (i * 37 % 91), i / 7.0 from n;
create index tb on t(b);
select b, count(*), sum(c) from t group by b order by 2 desc, 1 limit 5;
select count(*) from t x join t y on x.b = y.b;
