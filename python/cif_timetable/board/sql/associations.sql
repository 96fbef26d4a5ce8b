-- The associations of a train on a date, which is its own, whichever of the two trains it is. `other_uid` is the other one, and
-- `other_date` its date. Where that isn't in the window, or the other train doesn't run on it, nothing else is known of it.
WITH found AS (
    SELECT associations.*, days.date, associated_days.associated_date, 1 AS is_base
    FROM associations
    JOIN days ON days.date = :date
        AND days.date BETWEEN associations.first_date AND associations.last_date
        AND substr(associations.days_run, days.weekday, 1) > '0'
    LEFT JOIN associated_days ON associated_days.date = days.date
        AND associated_days.date_indicator = coalesce(associations.date_indicator, 'S')
    WHERE associations.base_uid = :uid
    UNION ALL
    SELECT associations.*, associated_days.date, associated_days.associated_date, 0 AS is_base
    FROM associations
    JOIN associated_days ON associated_days.associated_date = :date
        AND associated_days.date_indicator = coalesce(associations.date_indicator, 'S')
        AND associated_days.date BETWEEN associations.first_date AND associations.last_date
        AND substr(associations.days_run, associated_days.weekday, 1) > '0'
    WHERE associations.associated_uid = :uid
)
SELECT
    found.*,
    CASE WHEN found.is_base THEN found.associated_uid ELSE found.base_uid END AS other_uid,
    CASE WHEN found.is_base THEN found.associated_date ELSE found.date END AS other_date,
    coalesce(places.name, found.location) AS location_name,
    other.identity AS other_identity,
    other.origin AS other_origin,
    coalesce(starts.name, other.origin) AS other_origin_name,
    other.destination AS other_destination,
    coalesce(ends.name, other.destination) AS other_destination_name
FROM found
LEFT JOIN locations AS places ON places.tiploc = found.location
LEFT JOIN days AS other_days ON other_days.date = CASE WHEN found.is_base THEN found.associated_date ELSE found.date END
LEFT JOIN schedules AS other ON other.uid = CASE WHEN found.is_base THEN found.associated_uid ELSE found.base_uid END
    AND other_days.date BETWEEN other.first_date AND other.last_date
    AND substr(other.days_run, other_days.weekday, 1) > '0'
LEFT JOIN locations AS starts ON starts.tiploc = other.origin
LEFT JOIN locations AS ends ON ends.tiploc = other.destination
ORDER BY found.location, found.category, other_uid;
