-- The portions that riders of these journeys reach, or have come from (@JOURNEY@ is journey or portion_journey), on these dates of the
-- train that they are in (@DATE@ is train_date or portion_date).
SELECT
    @JOURNEY@ AS of_journey,
    @DATE@ AS of_date,
    before_call,
    after_call,
    category,
    location,
    location_name,
    uid,
    portion,
    origin,
    origin_name,
    destination,
    destination_name
FROM portions_on
WHERE @JOURNEY@ IN (SELECT value FROM json_each(:journeys)) AND @DATE@ IN (SELECT value FROM json_each(:dates))
ORDER BY location, portion, uid;
