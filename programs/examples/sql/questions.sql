-- Reads a table that was handed in, and asks of it.
.mode csv
.import school.csv pupils
.mode column
select subject, count(*) as pupils, round(avg(points), 2) as average, max(cast(points as integer)) as best
  from pupils group by subject order by subject;
select name, points, rank() over (partition by year order by cast(points as integer) desc) as place
  from pupils where year = '3' order by place;
select group_concat(name, ', ') from (select name from pupils where name like '%a%' order by name);
