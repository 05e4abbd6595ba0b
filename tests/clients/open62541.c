/* A client over open62541, a library of another maker, at a uahist server: what it is answered, a line each.
 * The argument is the server's URL. tests/clients.py compiles this, runs it, and knows what it has to print. */
#include <open62541/client.h>
#include <open62541/client_config_default.h>
#include <open62541/client_highlevel.h>
#include <open62541/client_subscriptions.h>
#include <open62541/plugin/log_stdout.h>
#include <stdio.h>
#include <stdlib.h>
#include <string.h>

#define HOUR (3600LL * UA_DATETIME_SEC)
static UA_DateTime day;
static char *node = "boiler.temperature";

static UA_Client *new_client(void) {
    UA_ClientConfig config;
    memset(&config, 0, sizeof config);
    config.logging = UA_Log_Stdout_new(UA_LOGLEVEL_FATAL);
    UA_ClientConfig_setDefault(&config);
    return UA_Client_newWithConfig(&config);
}

static void told(const char *what, UA_StatusCode status) { printf("%s: %s\n", what, UA_StatusCode_name(status)); }

static UA_Client *logged_in(const char *url, const char *user, const char *password) {
    UA_Client *client = new_client();
    UA_StatusCode status = user ? UA_Client_connectUsername(client, url, user, password) : UA_Client_connect(client, url);
    printf("login of %s: %s\n", user ? user : "nobody", UA_StatusCode_name(status));
    if(status == UA_STATUSCODE_GOOD)
        return client;
    UA_Client_delete(client);
    return NULL;
}

/* ---- what is read */

struct reading { int rows, pages; char shown[2000]; };

static void show(struct reading *reading, const char *text) {
    if(strlen(reading->shown) + strlen(text) < 300)
        strcat(reading->shown, text);
}

static UA_Boolean take(UA_Client *client, const UA_NodeId *id, UA_Boolean more, const UA_ExtensionObject *data, void *context) {
    struct reading *reading = context;
    char text[200];
    reading->pages++;
    if(data->content.decoded.type == &UA_TYPES[UA_TYPES_HISTORYMODIFIEDDATA]) {
        UA_HistoryModifiedData *page = data->content.decoded.data;
        for(size_t i = 0; i < page->dataValuesSize; i++) {
            UA_ModificationInfo *info = &page->modificationInfos[i];
            snprintf(text, sizeof text, " %d by change %d of %.*s", *(UA_Int32*)page->dataValues[i].value.data, info->updateType,
                     (int)info->userName.length, info->userName.data);
            show(reading, text);
        }
        reading->rows += page->dataValuesSize;
    } else {
        UA_HistoryData *page = data->content.decoded.data;
        for(size_t i = 0; i < page->dataValuesSize; i++) {
            UA_DateTimeStruct time = UA_DateTime_toStruct(page->dataValues[i].sourceTimestamp);
            snprintf(text, sizeof text, " %d at %02u:%02u", *(UA_Int32*)page->dataValues[i].value.data, time.hour, time.min);
            show(reading, text);
        }
        reading->rows += page->dataValuesSize;
    }
    return true;
}

static void read_back(UA_Client *client, const char *what, UA_Boolean modified, UA_DateTime from, UA_DateTime to, UA_UInt32 page) {
    UA_NodeId id = UA_NODEID_STRING(1, node);
    struct reading reading = {0};
    UA_StatusCode status = modified
        ? UA_Client_HistoryRead_modified(client, &id, take, from, to, UA_STRING_NULL, false, page, UA_TIMESTAMPSTORETURN_SOURCE, &reading)
        : UA_Client_HistoryRead_raw(client, &id, take, from, to, UA_STRING_NULL, false, page, UA_TIMESTAMPSTORETURN_SOURCE, &reading);
    printf("%s: %s, %d rows in %d pages%s\n", what, UA_StatusCode_name(status), reading.rows, reading.pages,
           reading.rows <= 6 ? reading.shown : "");
}

/* ---- what is written */

static UA_DataValue value_at(void *value, const UA_DataType *type, UA_DateTime time) {
    UA_DataValue made;
    UA_DataValue_init(&made);
    UA_Variant_setScalar(&made.value, value, type);
    made.hasValue = made.hasSourceTimestamp = true;
    made.sourceTimestamp = time;
    return made;
}

static void correct(UA_Client *client) {
    UA_NodeId id = UA_NODEID_STRING(1, node);
    UA_Int32 numbers[3] = {70, 71, 72};
    UA_DataValue values[3];
    for(int i = 0; i < 3; i++) {
        values[i] = value_at(&numbers[i], &UA_TYPES[UA_TYPES_INT32], day + i * HOUR);
        told("insert", UA_Client_HistoryUpdate_insert(client, &id, &values[i]));
    }
    numbers[1] = 81;
    told("replace", UA_Client_HistoryUpdate_replace(client, &id, &values[1]));
    numbers[2] = 82;
    told("update", UA_Client_HistoryUpdate_update(client, &id, &values[2]));
    told("insert where a value stands", UA_Client_HistoryUpdate_insert(client, &id, &values[2]));
    told("delete", UA_Client_HistoryUpdate_deleteRaw(client, &id, day, day + 1));
    read_back(client, "raw", false, day - HOUR, day + 24 * HOUR, 0);
    read_back(client, "raw, one value a page", false, day - HOUR, day + 24 * HOUR, 1);
    read_back(client, "raw, the newest first", false, day + 24 * HOUR, day - HOUR, 0);
    read_back(client, "modified", true, day - HOUR, day + 24 * HOUR, 0);
    read_back(client, "modified, two a page", true, day - HOUR, day + 24 * HOUR, 2);
}

/* An insert of values, by the service itself: how many were inserted, and what the status of them all is. */
static size_t insert(UA_Client *client, UA_DataValue *values, size_t count, UA_StatusCode *status) {
    UA_UpdateDataDetails details;
    UA_UpdateDataDetails_init(&details);
    details.nodeId = UA_NODEID_STRING(1, node);
    details.performInsertReplace = UA_PERFORMUPDATETYPE_INSERT;
    details.updateValues = values;
    details.updateValuesSize = count;
    UA_ExtensionObject object;
    UA_ExtensionObject_setValue(&object, &details, &UA_TYPES[UA_TYPES_UPDATEDATADETAILS]);
    UA_HistoryUpdateRequest request;
    UA_HistoryUpdateRequest_init(&request);
    request.historyUpdateDetails = &object;
    request.historyUpdateDetailsSize = 1;
    UA_HistoryUpdateResponse response = UA_Client_Service_historyUpdate(client, request);
    size_t inserted = 0;
    *status = response.responseHeader.serviceResult;
    if(response.resultsSize == 1) {
        *status = response.results[0].statusCode;
        for(size_t i = 0; i < response.results[0].operationResultsSize; i++)
            inserted += response.results[0].operationResults[i] == UA_STATUSCODE_GOODENTRYINSERTED;
    }
    UA_HistoryUpdateResponse_clear(&response);
    return inserted;
}

/* 2,500 values in requests of a thousand, read back in pages of a thousand. */
static void fill(UA_Client *client) {
    static UA_Int32 numbers[1000];
    static UA_DataValue values[1000];
    for(int from = 0; from < 2500; from += 1000) {
        int count = from + 1000 > 2500 ? 500 : 1000;
        for(int i = 0; i < count; i++) {
            numbers[i] = from + i;
            values[i] = value_at(&numbers[i], &UA_TYPES[UA_TYPES_INT32], day + 48 * HOUR + (from + i) * UA_DATETIME_SEC);
        }
        UA_StatusCode status;
        size_t inserted = insert(client, values, count, &status);
        printf("insert of %d values: %s, %zu inserted\n", count, UA_StatusCode_name(status), inserted);
    }
    read_back(client, "raw, a thousand a page", false, day + 48 * HOUR, day + 72 * HOUR, 1000);
}

/* A value of each type of the plant's variables, written and read back. */
static UA_Boolean same(UA_Client *client, const UA_NodeId *id, UA_Boolean more, const UA_ExtensionObject *data, void *context) {
    UA_HistoryData *page = data->content.decoded.data;
    UA_DataValue *sent = context;
    if(page->dataValuesSize == 1 && UA_order(&page->dataValues[0].value, &sent->value, &UA_TYPES[UA_TYPES_VARIANT]) == UA_ORDER_EQ)
        sent->hasServerTimestamp = true;
    return true;
}

static void write_as(UA_Client *client, char *name, UA_DataValue value) {
    UA_NodeId id = UA_NODEID_STRING(1, name);
    UA_StatusCode written = UA_Client_HistoryUpdate_insert(client, &id, &value);
    UA_StatusCode read = UA_Client_HistoryRead_raw(client, &id, same, day, day + HOUR, UA_STRING_NULL, false, 0, UA_TIMESTAMPSTORETURN_SOURCE, &value);
    printf("%s of %s: %s, %s, %s\n", value.value.arrayLength ? "an array" : "a value", name, UA_StatusCode_name(written), UA_StatusCode_name(read),
           value.hasServerTimestamp ? "the same" : "another");
}

static void each_type(UA_Client *client) {
    UA_Double pressure = 1.75; UA_Boolean burner = true; UA_UInt32 hours = 4000000000u; UA_DateTime serviced = day - HOUR;
    UA_UInt16 speed = 65535; UA_Boolean valves[4] = {true, false, true, true}; UA_Byte state = 255; UA_UInt64 energy = 1ull << 63;
    UA_Float outside = -3.5f; UA_Float forecast[3] = {1.5f, -2.25f, 0}; UA_String text = UA_STRING("pump oiled, näxt in May");
    write_as(client, "boiler.pressure", value_at(&pressure, &UA_TYPES[UA_TYPES_DOUBLE], day));
    write_as(client, "boiler.burner", value_at(&burner, &UA_TYPES[UA_TYPES_BOOLEAN], day));
    write_as(client, "boiler.hours", value_at(&hours, &UA_TYPES[UA_TYPES_UINT32], day));
    write_as(client, "boiler.serviced", value_at(&serviced, &UA_TYPES[UA_TYPES_DATETIME], day));
    write_as(client, "pump.speed", value_at(&speed, &UA_TYPES[UA_TYPES_UINT16], day));
    write_as(client, "pump.state", value_at(&state, &UA_TYPES[UA_TYPES_BYTE], day));
    write_as(client, "pump.energy", value_at(&energy, &UA_TYPES[UA_TYPES_UINT64], day));
    write_as(client, "weather.outside", value_at(&outside, &UA_TYPES[UA_TYPES_FLOAT], day));
    write_as(client, "notes", value_at(&text, &UA_TYPES[UA_TYPES_STRING], day));
    UA_DataValue array = value_at(&state, &UA_TYPES[UA_TYPES_BYTE], day);
    UA_Variant_setArray(&array.value, valves, 4, &UA_TYPES[UA_TYPES_BOOLEAN]);
    write_as(client, "pump.valves", array);
    UA_Variant_setArray(&array.value, forecast, 3, &UA_TYPES[UA_TYPES_FLOAT]);
    array.hasServerTimestamp = false;
    write_as(client, "weather.forecast", array);
    UA_NodeId counter = UA_NODEID_STRING(1, "boiler.hours");
    UA_DataValue other = value_at(&pressure, &UA_TYPES[UA_TYPES_DOUBLE], day + HOUR);
    told("a Double where a UInt32 is wanted", UA_Client_HistoryUpdate_insert(client, &counter, &other));
}

/* ---- what is there */

static void look(UA_Client *client) {
    UA_Variant value;
    UA_Variant_init(&value);
    told("NamespaceArray", UA_Client_readValueAttribute(client, UA_NODEID_NUMERIC(0, UA_NS0ID_SERVER_NAMESPACEARRAY), &value));
    printf("namespaces: %zu\n", value.arrayLength);
    UA_Variant_clear(&value);
    told("State", UA_Client_readValueAttribute(client, UA_NODEID_NUMERIC(0, UA_NS0ID_SERVER_SERVERSTATUS_STATE), &value));
    UA_Variant_clear(&value);
    told("CurrentTime", UA_Client_readValueAttribute(client, UA_NODEID_NUMERIC(0, UA_NS0ID_SERVER_SERVERSTATUS_CURRENTTIME), &value));
    UA_BrowseDescription what;
    UA_BrowseDescription_init(&what);
    what.nodeId = UA_NODEID_NUMERIC(0, UA_NS0ID_OBJECTSFOLDER);
    what.referenceTypeId = UA_NODEID_NUMERIC(0, UA_NS0ID_HIERARCHICALREFERENCES);
    what.includeSubtypes = true;
    what.browseDirection = UA_BROWSEDIRECTION_FORWARD;
    what.resultMask = UA_BROWSERESULTMASK_ALL;
    UA_BrowseRequest request;
    UA_BrowseRequest_init(&request);
    request.nodesToBrowse = &what;
    request.nodesToBrowseSize = 1;
    UA_BrowseResponse response = UA_Client_Service_browse(client, request);
    printf("Browse: %s,", UA_StatusCode_name(response.responseHeader.serviceResult));
    for(size_t i = 0; response.resultsSize == 1 && i < response.results[0].referencesSize; i++) {
        UA_String name = response.results[0].references[i].displayName.text;
        printf(" %.*s", (int)name.length, name.data);
    }
    printf("\n");
    UA_BrowseResponse_clear(&response);
    UA_NodeId id = UA_NODEID_STRING(1, node), type;
    UA_Byte level = 0, user_level = 0; UA_Boolean historizing = false; UA_LocalizedText text; UA_NodeClass class;
    told("AccessLevel", UA_Client_readAccessLevelAttribute(client, id, &level));
    told("UserAccessLevel", UA_Client_readUserAccessLevelAttribute(client, id, &user_level));
    printf("levels: %02x, %02x\n", level, user_level);
    told("Historizing", UA_Client_readHistorizingAttribute(client, id, &historizing));
    told("DataType", UA_Client_readDataTypeAttribute(client, id, &type));
    told("DisplayName", UA_Client_readDisplayNameAttribute(client, id, &text));
    told("NodeClass", UA_Client_readNodeClassAttribute(client, id, &class));
    told("latest value", UA_Client_readValueAttribute(client, id, &value));
    UA_Variant_clear(&value);
}

int main(int argc, char **argv) {
    const char *url = argv[1];
    day = UA_DateTime_fromUnixTime(1772323200);
    UA_Client *client = new_client();
    UA_EndpointDescription *endpoints = NULL;
    size_t count = 0;
    UA_StatusCode status = UA_Client_getEndpoints(client, url, &count, &endpoints);
    printf("GetEndpoints: %s, %zu\n", UA_StatusCode_name(status), count);
    UA_Array_delete(endpoints, count, &UA_TYPES[UA_TYPES_ENDPOINTDESCRIPTION]);
    UA_Client_delete(client);
    logged_in(url, NULL, NULL);
    logged_in(url, "ann", "wrong");
    client = logged_in(url, "ann", "boiler-7");
    if(!client)
        return 1;
    look(client);
    correct(client);
    fill(client);
    each_type(client);
    UA_StatusCode renewed = UA_Client_renewSecureChannel(client);
    UA_Client_run_iterate(client, 200);
    told("a channel renewed", renewed == UA_STATUSCODE_GOODCALLAGAIN ? UA_STATUSCODE_GOOD : renewed);
    UA_Int32 number = 5;
    UA_Variant written;
    UA_Variant_setScalar(&written, &number, &UA_TYPES[UA_TYPES_INT32]);
    told("Write", UA_Client_writeValueAttribute(client, UA_NODEID_STRING(1, node), &written));
    UA_CreateSubscriptionResponse subscription =
        UA_Client_Subscriptions_create(client, UA_CreateSubscriptionRequest_default(), NULL, NULL, NULL);
    told("CreateSubscription", subscription.responseHeader.serviceResult);
    UA_Client *reader = logged_in(url, "eve", "look-1");
    if(reader) {
        UA_DataValue value = value_at(&number, &UA_TYPES[UA_TYPES_INT32], day + 5 * HOUR);
        size_t inserted = insert(reader, &value, 1, &status);
        printf("insert of a reader: %s, %zu inserted\n", UA_StatusCode_name(status), inserted);
        read_back(reader, "raw, by a reader", false, day - HOUR, day + 24 * HOUR, 0);
        told("the reader's end", UA_Client_disconnect(reader));
        UA_Client_delete(reader);
    }
    read_back(client, "raw, once more", false, day - HOUR, day + 24 * HOUR, 0);
    told("the end", UA_Client_disconnect(client));
    UA_Client_delete(client);
    return 0;
}
